(* Zarith's numbers under a name that the extracted program doesn't take for its own. Small ones, which are OCaml's own
   integers, are compared, halved, added and multiplied at once, where what comes out is as small: a sum that has the sign
   that it should have, a product that is below 2^62 by far, told by floats. (One `if` in another, where both are asked
   for: so OCaml leaves out what it knows of constants.) *)
include Z
let small (x : t) = Obj.is_int (Obj.repr x)
let int (x : t) : int = Obj.magic x
let own (n : int) : t = Obj.magic n
let lt x y = if small x then if small y then int x < int y else Z.lt x y else Z.lt x y
let leq x y = if small x then if small y then int x <= int y else Z.leq x y else Z.leq x y
let equal x y = if small x then if small y then int x = int y else Z.equal x y else Z.equal x y
let div2 x = if small x then own (Stdlib.( asr ) (int x) 1) else Z.shift_right x 1
let is_odd x = if small x then Stdlib.( land ) (int x) 1 = 1 else Z.is_odd x
let logor x y = if small x && small y then own (Stdlib.( lor ) (int x) (int y)) else Z.logor x y
let neg x = if small x && int x <> Stdlib.min_int then own (Stdlib.( ~- ) (int x)) else Z.neg x
let abs x = if lt x (own 0) then neg x else x
let other_sign a b = Stdlib.( lxor ) a b < 0
let add x y =
  if small x && small y then
    let n = Stdlib.( + ) (int x) (int y) in
    if other_sign n (int x) && other_sign n (int y) then Z.add x y else own n
  else Z.add x y
let sub x y =
  if small x && small y then
    let n = Stdlib.( - ) (int x) (int y) in
    if other_sign (int x) (int y) && other_sign n (int x) then Z.sub x y else own n
  else Z.sub x y
let mul x y =
  if small x && small y && Stdlib.abs_float (Stdlib.float (int x) *. Stdlib.float (int y)) < 4e18
  then own (Stdlib.( * ) (int x) (int y)) else Z.mul x y
let same_byte (a : char) b = a = b
(* A digit, or -1; ten times n and d, at once where n is below 2^58, and d below 16. *)
let digit_value c : t = let d = Stdlib.( - ) (Char.code c) 48 in if d >= 0 && d < 10 then own d else own (-1)
let tenfold n d =
  if small n && small d && Stdlib.( lsr ) (int n) 58 = 0 && Stdlib.( lsr ) (int d) 4 = 0
  then own (Stdlib.( + ) (Stdlib.( * ) 10 (int n)) (int d)) else Z.add (Z.mul (own 10) n) d
