"""The modules of demo/page: the crates of `live` as WebAssembly, and the page with all that it needs in one file.

The kit compiles no program for WebAssembly that takes memory from Global. So LLVM's module is taken where the kit hands it to its clang for
x86-64, and compiled for wasm64 by the same clang, with demo/page/module/glue.c in the place of a C library."""
import base64
import gzip
import json
import re
import shutil
import tempfile
from pathlib import Path

from kit import Kit, stop

USES = ["memory_wanted", "pair_core", "script_player"]
WASM = ["--target=wasm64-unknown-unknown", "-mcpu=lime1", "-O3", "-ffunction-sections", "-fdata-sections"]
# What the kit gives its own clang for wasm64.
OF_THE_KIT = [word for flag in ("-trap-unreachable", "-expand-div-rem-bits=64", "-expand-fp-convert-bits=64", "-disable-machine-licm",
                                "-disable-postra-machine-licm", "-sink-common-insts=false") for word in ("-mllvm", flag)]
LINK = ["-flavor", "wasm", "-mwasm64", "--no-entry", "--stack-first", "-z", "stack-size=1048576", "--gc-sections", "--strip-all", "--threads=1",
        "--max-memory=17179869184"]
SCRIPTS = ["frames", "client", "module", "pair", "view", "main"]
EXPORTS = ["page_begin", "page_play", "page_text", "page_text_bytes", "page_room"]
EARLY = ["early_count", "early_frame", "early_bytes", "early_forget"]


def kept_module(kit: Kit, source: Path, room: Path) -> Path:
    """Proves the crate of the page, and answers LLVM's module of it."""
    (room / "src").mkdir()
    shutil.copy(source, room / "src" / "lib.rt")
    for answers in source.parent.glob("*.answers"):
        (room / "proofs" / answers.stem).mkdir(parents=True)
        shutil.copy(answers, room / "proofs" / answers.stem / "Answers.antt")
    tools = room / "toolchain" / "bin"
    tools.mkdir(parents=True)
    for name in ("ld.lld", "llvm-ar", "rattle-x64"):
        (tools / name).symlink_to(kit.toolchain / "bin" / name)
    (room / "toolchain" / "lib").symlink_to(kit.toolchain / "lib")
    clang = kit.toolchain / "bin" / "clang"
    (tools / "clang").write_text(f'#!/bin/sh\nfor word in "$@"; do case $word in *.bc) cp "$word" {room}/kept.bc ;; esac; done\n'
                                 f'exec {clang} "$@"\n')
    (tools / "clang").chmod(0o755)
    kit.build(room / "src" / "lib.rt", "page", USES, ["--crate-type", "staticlib", "--cpu", "x86-64"], room / "page.a", room / "toolchain")
    if not (room / "kept.bc").is_file():
        stop("the kit handed its clang no module of the page")
    return room / "kept.bc"


def text_of(kit: Kit, module: Path, room: Path) -> str:
    """LLVM's module as a text, for wasm64 in the place of x86-64."""
    kit.clang("-S", "-emit-llvm", "-Xclang", "-disable-llvm-passes", "-w", "-o", room / "x86.ll", module)
    (room / "nothing.c").write_text("int nothing;\n")
    kit.clang(*WASM, "-S", "-emit-llvm", "-o", room / "nothing.ll", room / "nothing.c")
    layout = re.findall(r"(?m)^target datalayout = .*$", (room / "nothing.ll").read_text())
    text: str = re.sub(r"(?m)^target datalayout = .*$", lambda _: layout[0], (room / "x86.ll").read_text())
    text = re.sub(r"(?m)^target triple = .*$", 'target triple = "wasm64-unknown-unknown"', text)
    return re.sub(r' "probe-stack"="[^"]*" "stack-probe-size"="\d+" "target-cpu"="x86-64"', "", text)


def with_wrong_gate(text: str, folder: Path) -> str:
    """The module in which the gate's `hold` is that of early.ll."""
    name = '@"output_gate::gate::Gate::hold"('
    if text.count(f"define internal void {name}") != 1:
        stop("the module of the page has no gate whose frames could be handed out")
    return text.replace(f"define internal void {name}", "define internal void @as_it_should_be(") + (folder / "early.ll").read_text()


def compiled(kit: Kit, text: str, sources: list[Path], exports: list[str], room: Path) -> bytes:
    """The WebAssembly module of LLVM's module and of these sources in C."""
    (room / "module.ll").write_text(text)
    kit.clang(*WASM, "-mno-bulk-memory", "-mno-bulk-memory-opt", "-w", *OF_THE_KIT, "-c", "-o", room / "module.o", room / "module.ll")
    objects = [room / "module.o"]
    for source in sources:
        objects.append(room / f"{source.stem}.o")
        kit.clang(*WASM, "-ffreestanding", "-nostdinc", "-fno-builtin", "-Wall", "-Wextra", "-Werror", "-c", "-o", objects[-1], source)
    kit.link(*LINK, *(f"--export={name}" for name in exports), "-o", room / "module.wasm", *objects)
    return (room / "module.wasm").read_bytes()


def modules(kit: Kit, folder: Path) -> dict[str, bytes]:
    """The module of the page, and the one whose gate lets frames go too early."""
    with tempfile.TemporaryDirectory() as at:
        room = Path(at)
        text = text_of(kit, kept_module(kit, folder / "session.rattle", room), room) + (folder / "exports.ll").read_text()
        glue, early = folder / "glue.c", folder / "early.c"
        return {"right": compiled(kit, text, [glue], EXPORTS, room),
                "early": compiled(kit, with_wrong_gate(text, folder), [glue, early], EXPORTS + EARLY, room)}


def packed(content: bytes) -> str:
    return base64.b64encode(gzip.compress(content, 9, mtime=0)).decode()


def image_of(words: str) -> bytes:
    """The bytes of a guest's words."""
    return b"".join(int(word, 16).to_bytes(4, "little") for word in words.split())


def whole_page(folder: Path, parts: dict[str, str]) -> str:
    """The page with its style, its script and these parts, each as the page unpacks it."""
    scripts = [(folder / f"{name}.js").read_text().replace('"use strict";\n', "") for name in SCRIPTS]
    script = '"use strict";\n' + f"const PARTS = {json.dumps(parts)};\n" + "\n".join(scripts)
    if "</script" in script:
        stop("a script of the page has an end of its own")
    text = (folder / "page.html").read_text()
    return text.replace("@STYLE@", (folder / "style.css").read_text().strip()).replace("@SCRIPT@", script.strip())
