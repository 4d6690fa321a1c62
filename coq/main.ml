(* chanv-coq verify FILE..: reads each file, and prints what the proved function of Output.v answers. *)
open Verifier

let usage = "usage: chanv-coq verify FILE..\n       chanv-coq --version\n"
let about = "chanv-coq " ^ Version.text ^ "\n\
  The answer to each text is proved in Coq. Not proved are this program (main.ml), which reads files\n\
  and prints answers, Coq's extraction to OCaml, and OCaml's compiler and library.\n"

let bytes_of text = List.init (String.length text) (fun at -> Char.code text.[at])

let print channel bytes =
  let text = Buffer.create 256 in
  List.iter (fun b -> Buffer.add_char text (Char.chr b)) bytes;
  Buffer.output_buffer channel text;
  flush channel

(* All that is left, or its first bytes if it is longer than a deck may be. *)
let text_of channel =
  let expected = try in_channel_length channel with Sys_error _ -> 0 in
  let text = Buffer.create (max 65_536 (min expected (most_text + 1))) in
  let chunk = Bytes.create 65_536 in
  let rec go () =
    let n = input channel chunk 0 (Bytes.length chunk) in
    Buffer.add_subbytes text chunk 0 n;
    if n > 0 && Buffer.length text <= most_text then go () in
  go ();
  Buffer.contents text

(* Takes memory for what is made of a text, and leaves it to the heap. In the midst of a collection OCaml
   can't report that there is no more, so it is asked for before. *)
let reserve length =
  ignore (Sys.opaque_identity (Bytes.create (33_554_432 + (4 * length))));
  Gc.set { (Gc.get ()) with Gc.max_overhead = 1_000_000 };
  Gc.full_major ()

let answer_to name channel =
  let text = text_of channel in
  reserve (String.length text);
  answer name (fun at -> Char.code text.[at]) (String.length text)

let answer_of_file file =
  let name = bytes_of file in
  match open_in_bin file with
  | exception Sys_error _ -> report name (Failed CannotOpen)
  | channel ->
    Fun.protect ~finally:(fun () -> close_in_noerr channel) (fun () ->
      match answer_to name channel with
      | exception Sys_error _ -> report name (Failed ReadFailed)
      | exception (Out_of_memory | Stack_overflow) -> report name (Failed OutOfMemory)
      | it -> it)

(* the greatest status of all *)
let verify files =
  let each status file =
    let it = answer_of_file file in
    print stdout it.written;
    print stderr it.reported;
    max status it.exit_status in
  List.fold_left each 0 files

(* The line of a failed write names no file. *)
let write_failed () =
  let it = report [] (Failed WriteFailed) in
  (try print stderr it.reported with Sys_error _ -> ());
  it.exit_status

let () =
  match List.tl (Array.to_list Sys.argv) with
  | [ "--version" ] -> print_string about
  | "verify" :: (_ :: _ as files) -> exit (try verify files with Sys_error _ -> write_failed ())
  | _ -> prerr_string usage; exit 4
