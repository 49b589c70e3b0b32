"""Installs the programs below a folder, with a front that runs them, a manual page and the completion of words; and tells of the version.

  PREFIX/bin/xsap, xsap_program, and so on          links to what stands in
  PREFIX/lib/xsap/                                  the front, the programs, release.txt with their sums, and about.txt
  PREFIX/share/man/man1/xsap.1                      the manual page
  PREFIX/share/doc/xsap/                            the manual, the tutorial and the guide to modelling, and the example of the help
  PREFIX/share/bash-completion/completions/xsap     and PREFIX/share/zsh/site-functions/_xsap: completions
"""
import os
import subprocess

from running import kept, programs
from running.machine import Unready
from running.programs import TOP
from running.verbs import FORMS, OWN, OWN_VERBS, SHORT, SHOWING, VERBS, VERSION, file_options, options_of, short_options

DOCUMENTS = ("MANUAL.md", "TUTORIAL.md", "MODELLING.md")
EXAMPLE_FILES = ("model.smv", "faults.fei", "causes", "tops", "crash.trace", "pass.trace")


def said_by(words, folder):
    """Returns the line that a command prints, or nothing."""
    try:
        done = subprocess.run(words, cwd=folder, stdin=subprocess.DEVNULL, stdout=subprocess.PIPE, stderr=subprocess.DEVNULL)
    except OSError:
        return ""
    return done.stdout.decode(errors="replace").strip() if not done.returncode else ""


def about():
    """Returns the version, the commit, the kit and where the program comes from, as lines."""
    if programs.is_installed():
        return kept.read(f"{TOP}/about.txt").decode()
    has_git = os.path.exists(f"{TOP}/.git")
    commit = said_by(["git", "describe", "--always", "--abbrev=12", "--dirty=, with changes", "--exclude=*"], TOP) if has_git else ""
    try:
        kit = programs.release().kit
    except Unready:
        kit = ""
    try:
        path, _ = programs.chosen(kept.PROGRAMS[0])
        program = "kept in release/, which .ci/run compares with the one that it proves"
    except Unready as why:
        path, program = None, f"none: {why}"
    if path:
        program = f"proved and built here, {os.path.relpath(path, TOP)}"
        kit = said_by(["rt", "version"], TOP) or kit
    return f"xsap {VERSION}\ncommit: {commit or 'not known'}\nkit: {kit or 'not known'}\nprogram: {program}\n"


def install(prefix):
    """Installs all below a folder, and returns the status."""
    prefix = os.path.abspath(prefix)
    data = {name: kept.read(programs.find(name)) for name in kept.PROGRAMS}
    text = about().replace("program: kept in release/, which", "program: the kept one of that commit, which")
    text = text.replace(f", {os.path.relpath(programs.built(kept.PROGRAMS[0]), TOP)}", "").replace("built here", "built where it was installed from")
    try:
        lay_down(prefix, data, text)
    except OSError as error:
        raise Unready(f"not installed: {error.strerror} ({error.filename})") from None
    programs.tell(f"installed below {prefix}: bin/xsap, with its manual page ({prefix}/share/man) and completions")
    return 0


def lay_down(prefix, data, text):
    """Writes the files below a folder, the programs last, so that a front of them finds all that it needs."""
    to, share = f"{prefix}/lib/xsap", f"{prefix}/share"
    kept.write(f"{to}/xsap", kept.read(f"{TOP}/xsap"), 0o755)
    for name in sorted(os.listdir(f"{TOP}/tools/running")):
        if name.endswith(".py"):
            kept.write(f"{to}/tools/running/{name}", kept.read(f"{TOP}/tools/running/{name}"))
    kept.write(f"{to}/about.txt", text.encode())
    kept.write(f"{share}/man/man1/xsap.1", kept.read(f"{TOP}/docs/xsap.1"))
    for name in DOCUMENTS:
        kept.write(f"{share}/doc/xsap/{name}", kept.read(f"{TOP}/docs/{name}"))
    for name in EXAMPLE_FILES:
        kept.write(f"{share}/doc/xsap/examples/crossing/{name}", kept.read(f"{TOP}/examples/crossing/{name}"))
    kept.write(f"{share}/bash-completion/completions/xsap", bash_completion().encode())
    kept.write(f"{share}/zsh/site-functions/_xsap", zsh_completion().encode())
    kit = next(it for it in text.split("\n") if it.startswith("kit: "))[5:]
    values = {name: {"bytes": len(it), "sum": kept.sum_of(it), "packed": 0, "sources": 0} for name, it in data.items()}
    for name, it in data.items():
        kept.write(f"{to}/{name}", it, 0o755)
    kept.write(f"{to}/{kept.TEXT}", kept.text_of(kit, values).encode())
    os.makedirs(f"{prefix}/bin", exist_ok=True)
    for name in ("xsap", *data):
        link(f"../lib/xsap/{name}", f"{prefix}/bin/{name}")


def link(target, path):
    """Makes a link, or puts it in the place of what an earlier installation left."""
    part = f"{path}.{os.getpid()}"
    os.symlink(target, part)
    os.replace(part, path)


# The options of sizes in turn, which are offered by themselves.
LAYERED = ("--layers", "--seconds")


def options_for(verb):
    """Returns the options of a verb, with those of the short form."""
    return [*options_of(verb), *(it for it in short_options(verb) if it not in LAYERED)]


def other_values():
    """Returns the options whose values nothing completes."""
    found = {it for verb in VERBS for it in options_of(verb)} - {*file_options(), "--claim"}
    return "|".join(sorted([*found, "--seconds"]))


def bash_completion():
    """Returns the completion for bash: verbs, then files as plain arguments, the options of the verb that are not yet there, and their values."""
    arms = "".join(f"        {verb}) options+=' {' '.join(options_for(verb))}' ;;\n" for verb in (*VERBS, *OWN_VERBS))
    return f"""# Completes the words of xsap in bash.
_xsap() {{
    local word=${{COMP_WORDS[COMP_CWORD]}} before=${{COMP_WORDS[COMP_CWORD-1]}} verb='' at=1 options='' option
    while [[ ${{COMP_WORDS[at]}} == --explain || ${{COMP_WORDS[at]}} == --exact ]]; do
        at=$((at + 1))
    done
    COMPREPLY=()
    if ((COMP_CWORD <= at)); then
        COMPREPLY=($(compgen -W '{' '.join([*VERBS, *OWN_VERBS, *SHOWING, *OWN])}' -- "$word"))
        return
    fi
    verb=${{COMP_WORDS[at]}}
    if [[ $verb == --help ]]; then
        COMPREPLY=($(compgen -W '{' '.join([*VERBS, *OWN_VERBS, *SHOWING])}' -- "$word"))
        return
    fi
    if [[ $verb == show || $verb == diff ]]; then
        if [[ $verb == show && $before == --format ]]; then
            COMPREPLY=($(compgen -W '{' '.join(FORMS)}' -- "$word"))
        elif [[ $verb == show ]] && ((COMP_CWORD - at > 1)); then
            COMPREPLY=($(compgen -W '--format --full --output' -- "$word"))
        elif ((COMP_CWORD - at <= 2)); then
            compopt -o filenames 2>/dev/null; mapfile -t COMPREPLY < <(compgen -f -- "$word")
        fi
        return
    fi
    if [[ $verb == analyse && $COMP_CWORD -eq $((at + 1)) ]]; then
        options=--layers
    elif [[ $verb == analyse && ${{COMP_WORDS[at+1]}} == --layers ]]; then
        at=$((at + 1)) options=--seconds
    fi
    case $before in
        {'|'.join(sorted(file_options()))}|--output) compopt -o filenames 2>/dev/null; mapfile -t COMPREPLY < <(compgen -f -- "$word"); return ;;
        --claim) COMPREPLY=($(compgen -W 'before after together none' -- "$word")); return ;;
        --format) COMPREPLY=($(compgen -W '{' '.join(FORMS)} exact' -- "$word")); return ;;
        {other_values()}) return ;;
    esac
    if [[ -n $word && $word != -* ]]; then
        compopt -o filenames 2>/dev/null; mapfile -t COMPREPLY < <(compgen -f -- "$word")
        return
    fi
    case $verb in
{arms}    esac
    [[ $options == --seconds* ]] && options=${{options/ --size/}}
    [[ $options == --seconds* ]] && options=${{options/{' '.join(SHORT)}/}}
    for option in $options; do
        [[ " ${{COMP_WORDS[*]:at}} " == *" $option "* && $option != "$word" ]] || COMPREPLY+=($(compgen -W "$option" -- "$word"))
    done
}}
complete -F _xsap xsap
"""


def zsh_completion():
    """Returns the completion for zsh: verbs, then files as plain arguments, the options of the verb, and their values."""
    arms = "".join(f"        {verb}) options+=({' '.join(options_for(verb))}) ;;\n" for verb in (*VERBS, *OWN_VERBS))
    files = "|".join(sorted(file_options()))
    return f"""#compdef xsap
# Completes the words of xsap in zsh.
_xsap() {{
    local at=2 verb
    local -a options short
    short=(--size {' '.join(SHORT)})
    while [[ ${{words[at]}} == (--explain|--exact) ]]; do at=$((at + 1)); done
    if ((CURRENT <= at)); then
        compadd -- {' '.join([*VERBS, *OWN_VERBS, *SHOWING, *OWN])}
        return
    fi
    verb=${{words[at]}}
    if [[ $verb == --help ]]; then
        compadd -- {' '.join([*VERBS, *OWN_VERBS, *SHOWING])}
        return
    fi
    if [[ $verb == (show|diff) ]]; then
        if [[ $verb == show && ${{words[CURRENT-1]}} == --format ]]; then
            compadd -- {' '.join(FORMS)}
        elif [[ $verb == show ]] && ((CURRENT - at > 1)); then
            compadd -- --format --full --output
        elif ((CURRENT - at <= 2)); then
            _files
        fi
        return
    fi
    if [[ $verb == analyse && $CURRENT -eq $((at + 1)) ]]; then
        options=(--layers)
    elif [[ $verb == analyse && ${{words[at+1]}} == --layers ]]; then
        at=$((at + 1)); options=(--seconds)
    fi
    case ${{words[CURRENT-1]}} in
        ({files}|--output) _files; return ;;
        (--claim) compadd -- before after together none; return ;;
        (--format) compadd -- {' '.join(FORMS)} exact; return ;;
        ({other_values()}) return ;;
    esac
    if [[ -n ${{words[CURRENT]}} && ${{words[CURRENT]}} != -* ]]; then
        _files
        return
    fi
    case $verb in
{arms}    esac
    [[ ${{options[1]}} == --seconds ]] && options=(${{options:|short}})
    compadd -- ${{options:|words}}
}}
_xsap "$@"
"""
