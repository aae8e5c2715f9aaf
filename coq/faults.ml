(* What is wrong with a text, in the words of `plift check` (docs/MESSAGES.md). Nothing is proved here: it is asked only
   where the checker has refused, and can only name a fault. *)
open Checker
module Z = Zarith module List = Stdlib.List module String = Stdlib.String
type string = String.t
let compare = Stdlib.compare

let find t p = match get t p with Some a -> a | None -> raise Not_found
let out = Printf.sprintf
let str = Z.to_string

let polys setting = function Own (_, polys) -> polys | Shared (_, place) -> find setting.shared place

(* The parameters of polynomials; their values at a corner, numbered as in docs/FORMATS.md. *)
let parameters polys =
  let used = List.fold_left (List.fold_left (fun m (n, _) -> Z.logor m n)) Z.zero polys in
  List.filter (Z.testbit used) (List.init 16 Fun.id)
let weights setting box polys corner =
  let ends = List.mapi (fun bit i -> let low, high = List.nth box i in (i, if corner lsr bit land 1 = 1 then high else low)) (parameters polys) in
  let term (m, c) = List.fold_left (fun n (i, e) -> Z.mul n (if Z.testbit m i then e else setting.d)) c ends in
  List.rev (List.rev_map (fun poly -> List.fold_left (fun n t -> Z.add n (term t)) Z.zero poly) polys)
let corners polys = 1 lsl List.length (parameters polys)
let dot f targets weights = List.fold_left2 (fun n t w -> Z.add n (Z.mul w (f t))) Z.zero targets weights

exception Found of string

(* The first test of a leaf that doesn't hold, state by state. *)
let leaf setting box one trouble =
  let picks = ref (match trouble with AboveMean (_, _, _, p) | BelowMean (_, _, p, _) -> p) in
  let pick () = match !picks with
    | Some (Run (p, n, rest)) -> picks := Some (if Z.leq n Z.one then rest else Run (p, Z.pred n, rest)); Some p
    | _ -> None in
  let rows c = function
    | None -> List.mapi (fun a r -> (a, r)) (c.choices ())
    | Some p -> if Z.sign p < 0 then [] else [(Z.to_int p, List.nth (c.choices ()) (Z.to_int p))] in
  let each_corner s a r test =
    let polys = polys setting r in
    let whole = Z.mul setting.whole (Z.pow setting.d (List.length (parameters polys))) in
    for corner = 0 to corners polys - 1 do
      test (out "state %d choice %d corner %d: " s a corner) whole (weights setting box polys corner)
    done in
  let state s c =
    let p = pick () and z = Z.of_int s in
    match trouble with
    | AboveMean (x, of_state, at_goal, _) ->
        let v = of_state z in
        if c.final then (if not (Z.equal v at_goal) then raise (Found (out "goal state %d value %s" s (str v))))
        else rows c p |> List.iter (fun (a, r) -> each_corner s a r (fun place whole w ->
          let mean = dot x (targets r) w and most = Z.mul v whole in
          if Z.gt mean most then raise (Found (out "%s%s > %s" place (str mean) (str most)))))
    | BelowMean (x, of_state, _, ranks) ->
        let v = of_state z in
        if c.final && not (Z.equal v one) then raise (Found (out "goal state %d value %s" s (str v)));
        let e, rank, i = match ranks with Some (e, rank) -> (Z.to_int e, rank, rank z) | None -> (0, (fun _ -> Z.zero), Z.one) in
        if Z.sign i < 0 && Z.sign v <> 0 then raise (Found (out "unranked state %d value %s" s (str v)));
        if not c.final && Z.sign i > 0 then rows c p |> List.iter (fun (a, r) -> each_corner s a r (fun place whole w ->
          let mean = dot x (targets r) w and least = Z.mul v whole in
          if Z.gt least mean then raise (Found (out "%s%s > %s" place (str least) (str mean)));
          if ranks <> None then begin
            let lower t = let j = rank t in if Z.sign j >= 0 && Z.lt j i then Z.one else Z.zero in
            let down = dot lower (targets r) w in
            if Z.lt (Z.shift_left down e) whole then
              raise (Found (out "%sweight %s times 2^%d < %s" place (str down) e (str whole)))
          end)) in
  try List.iteri state setting.cs; "" with Found s -> s

(* The first row that is no distribution over the region. *)
let rows setting box =
  let greatest = List.fold_left (fun n (l, h) -> Z.max n (Z.max (Z.abs l) (Z.abs h))) setting.d box in
  let before = Hashtbl.create 64 in
  let row s a r =
    let bad fmt = Printf.ksprintf (fun text -> raise (Found (out "state %d choice %d: %s" s a text))) fmt in
    let polys = polys setting r in
    let sums = Hashtbl.create 16 and size = ref Z.zero in
    Hashtbl.add sums 0 Z.zero;
    List.iter (List.iter (fun (m, c) ->
      let m = Z.to_int m in
      Hashtbl.replace sums m (Z.add c (try Hashtbl.find sums m with Not_found -> Z.zero));
      size := Z.add !size (Z.abs c))) polys;
    Hashtbl.fold (fun m n l -> (m, n) :: l) sums [] |> List.sort compare |> List.iter (fun (m, n) ->
      if not (Z.equal n (if m = 0 then setting.whole else Z.zero)) then bad "set %d sums to %s" m (str n));
    let g = List.length (parameters polys) in
    if g > 4 then bad "%d parameters" g;
    let width = Z.mul (Z.mul !size (Z.pow greatest g)) (Z.shift_left Z.one (Z.to_int setting.most)) in
    if Z.geq width (Z.shift_left Z.one 126) then bad "too wide";
    let at = List.init (corners polys) (fun k -> Array.of_list (weights setting box polys k)) in
    List.iteri (fun i t -> List.iteri (fun corner w ->
      let n = w.(i) in
      if Z.sign n < 0 then bad "target %s at corner %d has weight %s" (str t) corner (str n)) at) (targets r) in
  (* Of rows that share polynomials the first one is tried. *)
  let first = function
    | Own _ -> true
    | Shared (_, place) -> not (Hashtbl.mem before place) && (Hashtbl.add before place (); true) in
  try List.iteri (fun s c -> List.iteri (fun a r -> if first r then row s a r) (c.choices ())) setting.cs; "" with Found s -> s

(* The fault, for the line that was read last and what is wrong with that line as a whole. *)
let name line whole fault =
  let at l c = out "line %d: %s" l (match c with Syntax -> "Syntax" | Version -> "Version" | Limit -> "Limit" | Truncated -> "Truncated") in
  match fault, whole with
  | More, _ -> "rest"
  | _, Some c -> at line c
  | At c, None -> at line c
  | Before n, None -> at (line - Z.to_int n) Syntax
  | BadRows (setting, box), None -> rows setting box
  | BadDepth n, None -> out "node %s depth" (str n)
  | BadAxis n, None -> out "node %s axis" (str n)
  | BadLeaf (n, step, one, setting, box, t), None ->
      out "node %s %s%s" (str n) (if Z.sign step > 0 then out "step %s " (str step) else "") (leaf setting box one t)
  | BadBound (n, setting, is_low, left, right), None ->
      let word = match setting.question with Cost _ -> "budget" | _ -> "bound" in
      let low, high = match setting.question with Property ((Below | AtLeast), _) -> ("<", ">=") | _ -> ("<=", ">") in
      out "node %s %s: %s %s %s" (str n) word (str left) (if is_low then high else low) (str right)
