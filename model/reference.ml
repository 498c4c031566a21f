(* The reference program: dnorm's commands, its lines and its statuses. What decides between the bytes that are read
   and the answer is extracted from the proofs; this file calls it for each byte, opens files and spells answers.
   'reference help' prints the commands. *)
open Model

(* OCaml's own, and not that of the proofs. *)
type string = Stdlib.String.t

let string_of bytes = String.of_seq (List.to_seq bytes)
let number n = string_of (decimal n)
let numbers ns = String.concat " " (List.map number ns)
let count l = string_of_int (List.length l)
let ends (u, v) = numbers [u; v]
let option = function Some n -> number n | None -> "none"
let kind_name = function Min -> "min" | Max -> "max" | Sp -> "sp" | Ss -> "ss" | P2p -> "p2p" | Co -> "co"

let code_words = function
  | BadLine -> "1 BadLine" | EarlyLine -> "2 EarlyLine" | SecondProblem -> "3 SecondProblem"
  | UnknownProblem -> "4 UnknownProblem" | WrongLine -> "5 WrongLine" | LateNode -> "6 LateNode"
  | TooManyLines -> "7 TooManyLines" | FieldCount -> "8 FieldCount" | NotANumber -> "9 NotANumber"
  | OutOfRange -> "10 OutOfRange" | Negative -> "11 Negative" | BadTerminal -> "12 BadTerminal"
  | NodeOutOfRange -> "13 NodeOutOfRange" | RepeatedNode -> "14 RepeatedNode" | SameTerminal -> "15 SameTerminal"
  | LowAboveCap -> "16 LowAboveCap" | SumTooLarge -> "17 SumTooLarge" | NoProblem -> "18 NoProblem"
  | MissingTerminal -> "19 MissingTerminal" | TooFewLines -> "20 TooFewLines" | TooLong -> "21 TooLong"

(* An answer ends the run: a line on standard error, and the status. *)
exception Ended of string * int

let refuse name what = raise (Ended (name ^ what, 2))

let bytes_of name =
  try
    let c = if name = "-" then stdin else open_in_bin name in
    set_binary_mode_in c true;
    let b = Buffer.create 65536 in
    (try while true do Buffer.add_channel b c 1 done with End_of_file -> ());
    Buffer.contents b
  with Sys_error _ -> raise (Ended (name ^ ": 31 Read", 4))

(* Running.feed_read: this is what the bytes read as. *)
let instance_of name bytes =
  let r = ref beginning in
  String.iter (fun c -> r := feed !r c) bytes;
  match finish !r with
  | Inl i -> i
  | Inr (Line n, c) -> refuse name (":" ^ number n ^ ": " ^ code_words c)
  | Inr (End, c) -> refuse name (":end: " ^ code_words c)

let read name = instance_of name (bytes_of name)

(* Headline.program_prints: these are the bytes of the printed instance. *)
let print i =
  let b = Buffer.create 65536 and k = kind_of i in
  List.iter (fun item -> List.iter (Buffer.add_char b) (line k item)) (items i);
  Buffer.contents b

let canonical form i = print (canon form i)

(* Headline.is_canon: a text that is read is canonical if its bytes are those of the canonical text. *)
let forms i bytes =
  match List.filter (fun (form, _) -> canonical form i = bytes) [One, " 1"; Two, " 2"] with
  | [] -> "forms none"
  | found -> "forms" ^ String.concat "" (List.map snd found)

let check name companion =
  let bytes = bytes_of name in
  let i = instance_of name bytes in
  let fits = match companion with
    | None -> []
    | Some name ->
      let j = read name in
      match companion_fit i j with
      | Some NotKinds -> refuse name ": 36 NotKinds"
      | Some (NotInGraph id) -> refuse name (": 35 NotInGraph " ^ number id)
      | None -> ["fits " ^ kind_name (kind_of j)] in
  ["accepted " ^ kind_name (kind_of i)] @ fits @ [forms i bytes]

let how_words = function
  | Lengths (l, r) -> "length " ^ option l ^ " " ^ option r
  | Totals (l, r) -> "capacity " ^ numbers [l; r]
  | Costs (x, l, r) -> "amount " ^ number x ^ " cost " ^ option l ^ " " ^ option r

let verdict_words = function
  | Same -> "same"
  | Kind (l, r) -> "differ kind " ^ kind_name l ^ " " ^ kind_name r
  | Nodes (l, r) -> "differ nodes " ^ numbers [l; r]
  | Supply (id, l, r) -> "differ supply " ^ numbers [id; l; r]
  | Source (l, r) -> "differ source " ^ numbers [l; r]
  | Sink (l, r) -> "differ sink " ^ numbers [l; r]
  | Pair (p, h) -> "differ pair " ^ ends p ^ " " ^ how_words h
  | Length (l, r) -> "differ length " ^ numbers [l; r]
  | Item index -> "differ item " ^ number index
  | Point id -> "differ point " ^ number id

let show i =
  let pairs words = let shown = shown_pairs i in
    ("pairs " ^ count shown) :: List.map (fun (p, ns) -> "pair " ^ ends p ^ words ns) shown in
  let graph n arcs = ["nodes " ^ number n; "lines " ^ count arcs] in
  ("kind " ^ kind_name (kind_of i)) :: match i with
  | MinCostFlow (n, supplies, arcs) ->
    let words = function
      | [units; cost; steps] -> " forced " ^ number units ^ " cost " ^ number cost ^ " steps " ^ number steps
      | _ -> assert false in
    graph n arcs @ ("supplies " ^ count supplies) :: pairs words
  | MaxFlow (n, s, t, arcs) ->
    graph n arcs @ ("source " ^ number s) :: ("sink " ^ number t) :: pairs (fun ns -> " total " ^ numbers ns)
  | ShortestPaths (n, arcs) -> graph n arcs @ pairs (fun ns -> " length " ^ numbers ns)
  | Sources l -> ["lines " ^ count l]
  | Queries l -> ["lines " ^ count l]
  | Coordinates l -> ["lines " ^ count l]

let help = "reference [canon [--form 1|2] FILE | check FILE [--with COMPANION] | compare LEFT RIGHT | show FILE]\n"

let lines = List.fold_left (fun all l -> all ^ l ^ "\n") ""

let bad () = raise (Ended ("dnorm: bad command line", 3))
let twice () = raise (Ended ("dnorm: standard input named twice", 3))

let is_option word = String.length word > 1 && word.[0] = '-'

(* The value of 'OPTION=VALUE'. *)
let joined option word =
  let n = String.length option + 1 in
  if String.length word >= n && String.sub word 0 n = option ^ "=" then
    Some (String.sub word n (String.length word - n))
  else None

(* The values of an option, and the names, of words. *)
let rec parted option = function
  | [] -> [], []
  | "--" :: names -> [], names
  | word :: value :: rest when word = option && not (is_option value) ->
    let values, names = parted option rest in value :: values, names
  | word :: rest ->
    let values, names = parted option rest in
    match joined option word with
    | Some value -> value :: values, names
    | None -> if is_option word then bad () else values, word :: names

let answer = function
  | [] -> canonical One (read "-"), 0
  | ["help"] | ["--help"] -> help, 0
  | "canon" :: words ->
    (match parted "--form" words with
     | ([] | ["1"]), [name] -> canonical One (read name), 0
     | ["2"], [name] -> canonical Two (read name), 0
     | _ -> bad ())
  | "check" :: words ->
    (match parted "--with" words with
     | ["-"], ["-"] -> twice ()
     | [], [name] -> lines (check name None), 0
     | [companion], [name] -> lines (check name (Some companion)), 0
     | _ -> bad ())
  | "compare" :: words ->
    (match parted "--none" words with
     | [], ["-"; "-"] -> twice ()
     | [], [left; right] ->
       let i = read left in
       let v = first_difference i (read right) in
       verdict_words v ^ "\n", if v = Same then 0 else 1
     | _ -> bad ())
  | "show" :: words ->
    (match parted "--none" words with [], [name] -> String.concat "\n" (show (read name) @ [""]), 0 | _ -> bad ())
  | _ -> bad ()

(* The extracted functions recurse over lists: the program starts itself again with as much stack as it may have. *)
let with_stack () =
  if Sys.getenv_opt "REFERENCE_STACK" = None then begin
    Unix.putenv "REFERENCE_STACK" "1";
    let again = "ulimit -s unlimited 2>/dev/null || ulimit -s `ulimit -H -s`; exec \"$0\" \"$@\"" in
    let self = Sys.executable_name :: List.tl (Array.to_list Sys.argv) in
    Unix.execv "/bin/sh" (Array.of_list ("sh" :: "-c" :: again :: self))
  end

let () =
  with_stack ();
  (* Fewer collections, each of which scans the stack. *)
  Gc.set { (Gc.get ()) with minor_heap_size = 1 lsl 24; space_overhead = 200 };
  let status =
    try
      let out, status = answer (List.tl (Array.to_list Sys.argv)) in
      set_binary_mode_out stdout true;
      (try print_string out; flush stdout; status with Sys_error _ -> raise (Ended ("out: 33 Write", 4)))
    with
    | Ended (line, status) -> prerr_string (line ^ "\n"); status
    | Out_of_memory | Stack_overflow -> prerr_string "dnorm: 30 Memory\n"; 4 in
  (try flush stderr with Sys_error _ -> ());
  (* Without what OCaml does at an end, which would write to standard output again. *)
  Unix._exit status
