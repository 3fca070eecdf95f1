#!/usr/bin/env python3
"""Writes the proofs of the exports that lend the node to a function, which differ only in their parameters.

    crates/trdp_node/walks.py            writes proofs/EXPORT/Proof.antt for each export, of walk.txt
    crates/trdp_node/walks.py --check    ends with status 1 if a file isn't as it would be written

The export gets the node's pointer, lends what lies there to a function of the crate, and has it back:

    pub unsafe extern "C" fn EXPORT(alloc: Global, at: *mut u8, ..) {
        let held = &mut *(at as *mut HeldNode);
        LENT_TO(held, ..);
    }

Its last parameter is what it writes to. What LENT_TO ensures is one fact, and EXPORT ensures the same. The prover finds
no proof of a function that follows a raw pointer, so walk.txt has one: a walk over the function's statements.
"""
from __future__ import annotations

import pathlib
import re
import sys
from typing import NamedTuple

CRATE = pathlib.Path(__file__).resolve().parent


class Param(NamedTuple):
    """A parameter of an export."""

    kind: str
    """`ref` to a struct, `bytes` (a slice), `number` (a usize), or `written`: `&mut` of a struct."""
    struct: str = ""
    """The struct, with its module."""


class Export(NamedTuple):
    """An export that lends the node."""

    name: str
    """Its name, without `trdp_node_raw_`."""
    lent_to: str
    """The function that it lends the node to."""
    relation: str
    """What both ensure: of the node before and after, and of the parameters after the pointer."""
    params: tuple[Param, ...]
    """The parameters after the pointer."""


EXPORTS = (
    Export("step", "step", "Steps", (
        Param("ref", "event.EventNumbers"), Param("bytes"), Param("written", "results.Done"))),
    Export("record", "show", "ShowsRecord", (Param("number"), Param("written", "record.RecordNumbers"))),
    Export("line", "take_line", "TakesInLine", (Param("bytes"), Param("written", "results.Text"))),
    Export("text", "print", "Prints", (Param("written", "results.Text"),)),
    Export("state", "look", "TellsState", (Param("written", "results.State"),)),
)


class Slot(NamedTuple):
    """What the walk says of a parameter."""

    row: str
    """The row of its type."""
    words: str
    """The machine's words of its value."""
    law: str
    """Why these are its words."""
    fits: str
    """Why they fit."""
    leaves: str
    """What is left of it at the return."""
    goes: str
    """Why that is left."""
    value: str
    """What the relation says of it."""


def nested(*parts: str) -> str:
    """A tuple that is nested to the right and ends in tt."""
    return "".join(f"({part}, " for part in parts) + "tt" + ")" * len(parts)


def item(index: int) -> str:
    """The way to the item of that index in such a tuple."""
    return ".1" * index + ".0"


def joined(parts: list[str]) -> str:
    """Lists of words, one after the other."""
    return " ++ (".join([*parts, "[]"]) + ")" * len(parts)


def kept(at: int, param: Param, life: int) -> tuple[str, Slot]:
    """The type of a parameter that is dropped, and its slot without what depends on the type alone."""
    value, are, lives = f"x{at}", f"are{item(at + 2)}", f"(named {life}) κs{item(life)}"
    if param.kind == "ref":
        row = f"row{at}.the_row"
        return f"shr_ref_to ({life} ∷ []) tt (plain (λ _. {row}))", Slot(
            f"ShrRef {lives} {row}", f"shr_vals {value}", f"{are}.0", "(tt, tt)", "", "", f"{value}.now")
    if param.kind == "bytes":
        return f"shr_slice_of ({life} ∷ []) tt (plain (λ _. u8))", Slot(
            f"ShrSlice {lives} u8", f"shr_slice_vals {value}", f"{are}.0.0",
            f"(tt, (tt, (record {{ fits = {are}.0.1.0 }}, tt)))", "", "", f"{value}.now")
    return "plain (λ _. usize)", Slot(
        "usize", f"(vint w64 {value} ∷ [])", f"{are}.0", f"(tt, record {{ fits = {are}.1 }})", "", "", value)


def slot(at: int, param: Param, life: int, lives: int) -> Slot:
    """The slot of a parameter, at which index it stands, and the index of its lifetime, of so many."""
    if param.kind != "written":
        kind, made = kept(at, param, life)
        return made._replace(leaves=f"stay_dropped ({kind}) yes",
                             goes=f"Goes-dropped 𝓛 {lives} ({kind}) yes (λ κs x w. refl)")
    row = f"row{at}.the_row"
    return Slot(f"MutRef (named {life}) κs{item(life)} {row}", f"mut_vals x{at}", f"are{item(at + 2)}.0", "(tt, tt)",
                f"gave_ref ({life} ∷ []) tt (plain (λ _. {row}))",
                f"Goes-gave_ref 𝓛 {lives} {life} tt (plain (λ _. {row}))", "written")


def slots_of(export: Export) -> tuple[list[Slot], int]:
    """The slots of an export's parameters, and how many lifetimes these have."""
    borrowed = [param.kind != "number" for param in export.params]
    return [slot(at, param, sum(borrowed[:at]), sum(borrowed)) for at, param in enumerate(export.params)], sum(borrowed)


def arguments(count: int) -> str:
    """The arguments of the call, each of which is a local."""
    text = "(no_more !)"
    for _ in range(count):
        text = f"(and_then ! (get ! refl) {text})"
    return text


def words_of(export: Export) -> dict[str, str]:
    """What walk.txt has to be filled with."""
    slots, lives = slots_of(export)
    count, all_at = len(slots), range(len(slots))
    dropped = "Goes-dropped 𝓛 {} (plain (λ _. {})) yes (λ κs x w. refl)"
    line = "\n    "
    return {
        "EXPORT": f"trdp_node_raw_{export.name}",
        "LENT_TO": export.lent_to,
        "RELATION": export.relation,
        "ROWS": "\n".join(f"use Rattle.trdp_node.specs.contracts.{param.struct} as row{at}"
                          for at, param in enumerate(export.params) if param.struct),
        "LEAVES": nested("stay_dropped (plain (λ _. Z)) yes", "stay_dropped (plain (λ _. RawPtr)) yes",
                         *(it.leaves for it in slots)),
        "GOES": nested(dropped.format(lives, "Z"), dropped.format(lives, "RawPtr"), *(it.goes for it in slots)),
        "TOKENS": "".join(f"‵ (flft κs{item(at)} qs{item(at)}) ⊛ " for at in range(lives)) + "‵ ftrue",
        "NAMED": line.join([*(f"let x{at} = z.0.3{item(at + 2)} in" for at in all_at),
                            *(f"let r{at} : RattleType = {slots[at].row} in" for at in all_at),
                            *(f"let e{at} : z.0.4{item(at + 2)} ≡ {slots[at].words} = {slots[at].law} in"
                              for at in all_at)]),
        "TAKES": line.join(f"fsplit ! $ rewrite ! 0 (λ (xs : List Val). ‵ (r{at}.own_val x{at} xs)) e{at} refl $ "
                           "move ! (1 ∷ []) $" for at in all_at),
        "MEMORY": str(count + 2),
        "WORDS": joined([it.words for it in slots]),
        "VALUES": joined(["z.0.4.0", "z.0.4.1.0", *(f"z.0.4{item(at + 2)}" for at in all_at)]),
        "PATHS": joined(["eh i", "(ep ∙ ap (λ (q : Ptr). ptr_val q ∷ []) e) i", *(f"e{at} i" for at in all_at)]),
        "FITS": nested("fits", "(tt, tt)", *(it.fits for it in slots)),
        "GIVEN": nested("self", *(f"x{at}" for at in all_at)),
        "GIVEN_WORDS": nested("vptr b k ∷ []", *(it.words for it in slots)),
        "ORDER": " ∷ ".join(str(4 + at) for at in all_at),
        "JOINS": " $ ".join(["move ! (2 ∷ 0 ∷ []) $ fjoin !"] * count),
        "ARGUMENTS": arguments(count + 1),
        "WRITTEN": item(count),
        "DID": f"λ (x : R.Denot). {export.relation} value x {' '.join(it.value for it in slots)}",
        "DROPS": "fsplit ! $ drop ! $ " * (count - 1),
        "EXIT": nested(*["tt"] * (count + 1), f"ls{item(count)}"),
        "RETURNED": " $ ".join(["nothing ! $ fjoin !"] * (count + 1)),
        "LAST": nested(*["tt"] * (count + 2)),
    }


def main(options: list[str]) -> int:
    if options not in ([], ["--check"]):
        print("usage: crates/trdp_node/walks.py [--check]", file=sys.stderr)
        return 2
    status, template = 0, (CRATE / "walk.txt").read_text("utf-8")
    for export in EXPORTS:
        words = words_of(export)
        text = re.sub("@([A-Z_]+)@", lambda found: words[found[1]], template)
        path = CRATE / "proofs" / words["EXPORT"] / "Proof.antt"
        if path.exists() and path.read_text("utf-8") == text:
            continue
        if options:
            print(f"{path.relative_to(CRATE)} isn't as walks.py writes it")
            status = 1
        else:
            path.parent.mkdir(parents=True, exist_ok=True)
            path.write_text(text, "utf-8")
    return status


if __name__ == "__main__":
    sys.exit(main(sys.argv[1:]))
