(* coq-check [FILE]: reads a text of plift from FILE or standard input, and says whether it is sound.

   The proved function is Checker.check. What has to be believed of this file: the pieces that it is given, one after the
   other, are the bytes of the input, and `sound` is written only where it has said so. *)
open Checker
module Z = Zarith module List = Stdlib.List module String = Stdlib.String
type string = String.t
let compare = Stdlib.compare

let most_bytes = 1 lsl 32 and most_line = 1 lsl 20
exception Too_long
exception Read_fault

(* Bytes that were read and not yet given out, where they stand in the input, and where the line that is given out begins;
   the number of that line, whether all its words were given out, and what is wrong with it as a whole. *)
let channel = ref stdin
let chunk = ref Bytes.empty and from = ref 0 and upto = ref 0
let before = ref 0 and beginning = ref 0
let number = ref 0 and is_over = ref true and whole : cause option ref = ref None

(* Reads on behind the bytes that are there; false where nothing follows. *)
let more () =
  let have = !upto - !from in
  let there = if have < Bytes.length !chunk then !chunk else Bytes.create (max 65536 (2 * have)) in
  Bytes.blit !chunk !from there 0 have;
  chunk := there;
  before := !before + !from;
  from := 0;
  upto := have + (try input !channel there have (Bytes.length there - have) with Sys_error _ -> raise Read_fault);
  !upto > have

(* Where the word ends that begins at [from]; where the bytes end that are there, if nothing follows, or too many. *)
let rec stop text i last =
  if i >= last then i
  else
    let c = Bytes.unsafe_get text i in
    if c > ' ' || c <> ' ' && c <> '\n' then stop text (i + 1) last else i
let rec stop_from have =
  let i = stop !chunk (!from + have) !upto in
  if i < !upto then i
  else
    let have = i - !from in
    if have <= most_line && more () then stop_from have else !upto

(* Pieces: each word with the byte behind it. A piece is asked for once. The last bytes of most words are made once. *)
let rec bytes text first i l = if i < first then l else bytes text first (i - 1) (Bytes.unsafe_get text i :: l)
let short = Array.init 256 (fun code -> [Char.chr code; ' '])
let digits = Array.init 100 (fun n -> Char.chr (48 + n / 10) :: short.(48 + n mod 10))
let is_digit d = d >= 0 && d < 10
let before_blank text first last =
  if last - first < 1 then [' ']
  else begin
    let unit = Char.code (Bytes.unsafe_get text (last - 1)) in
    if last - first = 1 then Array.unsafe_get short unit
    else
      let ten = Char.code (Bytes.unsafe_get text (last - 2)) - 48 in
      if is_digit ten && is_digit (unit - 48) then bytes text first (last - 3) (Array.unsafe_get digits (10 * ten + unit - 48))
      else bytes text first (last - 2) (Array.unsafe_get short unit)
  end

let rec word () =
  let last = stop_from 0 in
  let first = !from and text = !chunk in
  let size = !before + last - !beginning in
  if last = !upto || size > most_line then begin
    if !before + last > most_bytes then raise Too_long;
    whole := Some (if size > most_line then Limit else Truncated);
    End
  end
  else begin
    from := last + 1;
    if Bytes.unsafe_get text last = ' ' then Word (before_blank text first last, word)
    else begin
      is_over := true;
      if !before + !from > most_bytes then raise Too_long;
      Word (bytes text first (last - 1) ['\n'], pieces)
    end
  end
and pieces () =
  incr number;
  beginning := !before + !from;
  if !from = !upto && not (more ()) then End else begin is_over := false; word () end

(* The rest of the line is read, so that it is known what is wrong with it as a whole. *)
let rec end_line () = if not !is_over && !whole = None then begin ignore (word ()); end_line () end

(* The numbers of a line, eight bytes each; those that are no integers of OCaml's stand apart, and min_int in their place.
   A line is filled once, and is asked only when it is full. The memory of one of a place other than 0 is taken away, and
   used again, for the next of that place; who asks for it nevertheless gets an exception. So to the checker these three
   are functions. *)
external get : Bytes.t -> int -> int64 = "%caml_bytes_get64u"
external set : Bytes.t -> int -> int64 -> unit = "%caml_bytes_set64u"
exception Taken_away
type numbers = { of_state : Bytes.t; size : int; mutable count : int; mutable apart : (int * Z.t) list }
let none_yet size = { of_state = Bytes.create (8 * size); size; count = 0; apart = [] }
let again n =
  let next = { n with count = 0; apart = [] } in
  n.count <- -1;
  next

(* While the model is read, and where memory is used again, there is little garbage but what is young; less room is left to
   the rows of long states, and to the lines of numbers of a large model, that are garbage. *)
let room percent = Gc.set { (Gc.get ()) with minor_heap_size = 1 lsl 16; space_overhead = percent }
let is_tight = ref false
let tighten_if large = if large && not !is_tight then begin is_tight := true; room 80 end
let at_place : (int, numbers) Hashtbl.t = Hashtbl.create 3
let fresh place size =
  let place = Z.to_int place and size = Z.to_int size in
  tighten_if (size > 4096);
  let next =
    match Hashtbl.find_opt at_place place with
    | Some n when place <> 0 && n.size = size -> again n
    | _ -> none_yet size in
  Hashtbl.replace at_place place next;
  next
let push z n =
  if n.count < n.size then begin
    if n.count < 0 then raise Taken_away;
    if Z.small z && Z.int z <> min_int then set n.of_state (8 * n.count) (Int64.of_int (Z.int z))
    else begin set n.of_state (8 * n.count) (Int64.of_int min_int); n.apart <- (n.count, z) :: n.apart end;
    n.count <- n.count + 1
  end;
  n
let see n =
  let of_state = n.of_state in
  fun s ->
    if Z.small s && Z.int s >= 0 && Z.int s < n.count then begin
      let number = Int64.to_int (get of_state (8 * Z.int s)) in
      if number = min_int then List.assoc (Z.int s) n.apart else Z.own number
    end
    else if n.count < 0 then raise Taken_away
    else Z.zero

(* The rows of a state as a string, the last one first, and so are the targets of each, its polynomials and their terms: so
   they are made again from their ends on. Numbers are written by sevens of bits, the lowest first. A row begins with twice
   the number of its targets, and one more where polynomials of its own stand behind them, each with the number of its
   terms; a term with twice its set of parameters, and one more where its coefficient is no integer of OCaml's. *)
exception Unfit
let string = Buffer.create 4096
let rec put n =
  if n land lnot 127 = 0 then Buffer.add_char string (Char.unsafe_chr n)
  else begin Buffer.add_char string (Char.unsafe_chr (n land 127 lor 128)); put (n lsr 7) end
let put_small z = if Z.small z && Z.int z >= 0 && Z.int z < 1 lsl 40 then put (Z.int z) else raise Unfit
let put_term (m, c) =
  if Z.small c then begin put_small (Z.mul (Z.own 2) m); put (Z.int c lsl 1 lxor (Z.int c asr 62)) end
  else begin
    let bits = Z.to_bits c in
    put_small (Z.add (Z.mul (Z.own 2) m) Z.one);
    put (2 * String.length bits + if Z.sign c < 0 then 1 else 0);
    Buffer.add_string string bits
  end
let put_poly p = put (List.length p); List.iter put_term (List.rev p)
let put_row row =
  let targets = targets row in
  let n = List.length targets in
  put (2 * n + match row with Own _ -> 1 | Shared _ -> 0);
  List.iter put_small (List.rev targets);
  match row with
  | Own (_, polys) -> if List.length polys <> n then raise Unfit else List.iter put_poly (List.rev polys)
  | Shared (_, place) -> put_small place

(* Where it is read on. *)
let at = ref 0
let byte_at s = let b = Char.code (String.unsafe_get s !at) in incr at; b
let rec more_at s shift n =
  let b = byte_at s in
  if b < 128 then n lor (b lsl shift) else more_at s (shift + 7) (n lor ((b land 127) lsl shift))
let number_at s = let b = byte_at s in if b < 128 then b else more_at s 7 (b land 127)
let big_at s =
  let size = number_at s in
  let c = Z.of_bits (String.sub s !at (size lsr 1)) in
  at := !at + size lsr 1;
  if size land 1 = 1 then Z.neg c else c
let rec targets_at s n l = if n = 0 then l else let t = Z.own (number_at s) in targets_at s (n - 1) (t :: l)
let rec terms_at s n l =
  if n = 0 then l
  else
    let m = number_at s in
    let c = if m land 1 = 1 then big_at s else let z = number_at s in Z.own (z lsr 1 lxor (- (z land 1))) in
    terms_at s (n - 1) ((Z.own (m lsr 1), c) :: l)
let rec polys_at s n l = if n = 0 then l else let p = terms_at s (number_at s) [] in polys_at s (n - 1) (p :: l)
let rec rows_at s l =
  if !at = String.length s then l
  else
    let head = number_at s in
    let n = head lsr 1 in
    let ts = targets_at s n [] in
    rows_at s ((if head land 1 = 1 then Own (ts, polys_at s n []) else Shared (ts, Z.own (number_at s))) :: l)
let pack rows =
  Buffer.clear string;
  match List.iter put_row (List.rev rows) with
  | () ->
      let s = Buffer.contents string in
      tighten_if (String.length s > 256);
      fun () -> at := 0; rows_at s []
  | exception Unfit -> fun () -> rows

(* A place in the tree for polynomials that rows share. New ones are given a place while there are few terms in all, beside
   those of the rows that were found to share: what is kept of them takes much memory. *)
module Table = Hashtbl.Make (struct
  type t = (Z.t * Z.t) list list
  let equal = same_polys
  let bits z = if Z.small z then Z.int z else Z.hash z
  let mix h n = let h = (h lxor n) * 0x1b873593cc9e2d51 in h lxor (h lsr 32)
  let rec of_poly h = function [] -> mix h 0 | (m, c) :: rest -> of_poly (mix (mix h (bits m)) (bits c)) rest
  let rec of_polys h = function [] -> h | poly :: rest -> of_polys (of_poly h poly) rest
  let hash polys = of_polys 7 polys land max_int
end)
let places = Table.create 1024
let kept = ref 0 and shared = ref 0
let terms polys = List.fold_left (fun n p -> n + List.length p) 0 polys
let hint _ _ polys =
  let size = terms polys in
  match Table.find places polys with
  | place -> shared := !shared + size; place
  | exception Not_found ->
      if !kept + size > 1024 + !shared / 16 then Z.zero
      else begin
        let place = Z.own (Table.length places + 1) in
        kept := !kept + size;
        Table.add places polys place;
        place
      end

let named fault = "not sound: " ^ (try Faults.name !number !whole fault with _ -> "no place or cause was found")
let refused fault = match end_line () with
  | () -> (1, named fault)
  | exception Too_long -> (7, "too long")
  | exception Read_fault -> (5, "read fault")
external end_where_memory_is_short : unit -> unit = "coq_check_memory" [@@noalloc]
let refuse status note = (try prerr_endline note with Sys_error _ -> ()); exit status

let main () =
  room 400;
  (match Sys.argv with
   | [| _ |] -> set_binary_mode_in stdin true
   | [| _; ("-h" | "--help") |] ->
       print_string "coq-check [FILE]: says whether a text of plift is sound; reads standard input where FILE is left out\n"; exit 0
   | [| _; file |] when file = "" || file.[0] <> '-' -> (try channel := open_in_bin file with Sys_error e -> refuse 5 ("read fault: " ^ e))
   | _ -> refuse 2 "usage: coq-check [FILE]");
  match check fresh push see hint pack pieces with
  | Sound (g, a, b, c) when !whole = None ->
      let a, b, c = Z.to_string a, Z.to_string b, Z.to_string c in
      (try
         (match g with
          | TProperty -> Printf.printf "sound holds %s fails %s unknown %s\n" a b c
          | TCost -> Printf.printf "sound accept %s unknown %s\n" a c
          | TReport | TBounded -> Printf.printf "sound accept %s reject %s unknown %s\n" a b c);
         flush stdout
       with Sys_error _ -> close_out_noerr stdout; refuse 6 "write fault")
  | Sound _ -> refuse 1 (named More)
  | NotSound fault -> let status, note = refused fault in refuse status note
  | exception Too_long -> refuse 7 "too long"
  | exception Read_fault -> refuse 5 "read fault"

let () =
  end_where_memory_is_short ();
  try main () with Out_of_memory | Stack_overflow -> refuse 8 "out of memory"
