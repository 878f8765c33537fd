#!/usr/bin/env python3
"""completions.py PREFIX: writes what bash, zsh and fish complete on the command lines of the programs below
PREFIX/bin, to the places below PREFIX where these shells look. All of it is read off what the programs print for
--help.
"""
import os
import re
import subprocess
import sys

PROGRAMS = ("seccheck", "scriptd", "scriptctl", "nodeagent")
PLACES = {"bash": "share/bash-completion/completions/{}", "zsh": "share/zsh/site-functions/_{}",
          "fish": "share/fish/vendor_completions.d/{}.fish"}
FILES, FOLDERS = {"PATH", "FILE", "FILTER"}, {"DIR"}


def section(text, title):
    """The entries of a section of --help: their words and their descriptions."""
    body = re.search(rf"^{title}:\n((?:  .*\n|\n(?=  ))*)", text, re.M)
    return re.findall(r"^  +(\S.*?)(?:  +(\S.*))?$", body.group(1), re.M) if body else []


class Line:
    """The options of a command line, each with its value's name, None for a flag, and its description."""

    def __init__(self, program, *command):
        ran = subprocess.run([program, *command, "--help"], capture_output=True, text=True)
        said = ran.stdout + ran.stderr
        self.commands = {} if command else {it: about for it, about in section(said, "Commands") if it != "help"}
        self.options = {}
        for words, about in section(said, "Options"):
            value = re.search(r"<(\w+)>", words)
            self.options[re.search(r"--[a-z-]+", words).group()] = (value and value.group(1), about)


def bash(name, lines):
    whole, values = lines[None], {}
    for line in lines.values():
        for option, (value, _) in line.options.items():
            if value:
                values.setdefault("-f" if value in FILES else "-d" if value in FOLDERS else "", set()).add(option)
    cases = "".join(f"    {'|'.join(sorted(found))})\n"
                    + (f'      COMPREPLY=($(compgen {how} -- "$word"))\n' if how else "") + "      return ;;\n"
                    for how, found in sorted(values.items()))
    words = "".join(f"    {command}) words='{' '.join(line.options)}' ;;\n"
                    for command, line in lines.items() if command)
    return f"""# bash completion of {name}, read off its --help
_{name}() {{
  local word=${{COMP_WORDS[COMP_CWORD]}} words='{' '.join([*whole.commands, *whole.options])}'
  COMPREPLY=()
  case ${{COMP_WORDS[COMP_CWORD - 1]}} in
{cases}  esac
  case ${{COMP_WORDS[1]}} in
{words}    *) [[ $COMP_CWORD -gt 1 && $word != -* ]] && words= ;;
  esac
  COMPREPLY=($(compgen -W "$words" -- "$word"))
  [[ ${{#COMPREPLY[@]}} -gt 0 && ($word == -* || $COMP_CWORD -eq 1) ]] || COMPREPLY=($(compgen -f -- "$word"))
}}
complete -o filenames -F _{name} {name}
"""


def zsh_arguments(line):
    found = []
    for option, (value, about) in line.options.items():
        about = about.replace("[", "(").replace("]", ")").replace("'", "'\\''")
        kind = "_files -/" if value in FOLDERS else "_files" if value in FILES else ""
        found.append(f"'{option}[{about}]" + (f":{value.lower()}:{kind}'" if value else "'"))
    return " ".join([*found, "'*:file:_files'"])


def zsh(name, lines):
    whole = lines[None]
    if not whole.commands:
        return f"#compdef {name}\n_arguments {zsh_arguments(whole)}\n"
    listed = " ".join(f"'{command}:{about}'" for command, about in whole.commands.items())
    cases = "".join(f"  {command}) shift words; (( CURRENT-- )); _arguments {zsh_arguments(line)} ;;\n"
                    for command, line in lines.items() if command)
    return f"""#compdef {name}
if (( CURRENT == 2 )); then
  [[ $words[2] != -* ]] || {{ _arguments {zsh_arguments(whole)}; return }}
  local -a commands=({listed})
  _describe command commands
  return
fi
case $words[2] in
{cases}esac
"""


def fish(name, lines):
    found = [f"complete -c {name} -n __fish_use_subcommand -a {command} -d '{about}'\n"
             for command, about in lines[None].commands.items()]
    for command, line in lines.items():
        when = f" -n '__fish_seen_subcommand_from {command}'" if command else ""
        for option, (value, about) in line.options.items():
            needs = " -r" if value else ""
            about = about.replace("'", "\\'")
            found.append(f"complete -c {name}{when} -l {option[2:]}{needs} -d '{about}'\n")
    return "".join(found)


def main():
    prefix = sys.argv[1]
    for name in PROGRAMS:
        program = f"{prefix}/bin/{name}"
        whole = Line(program)
        lines = {None: whole, **{command: Line(program, command) for command in whole.commands}}
        for shell, write in (("bash", bash), ("zsh", zsh), ("fish", fish)):
            path = f"{prefix}/{PLACES[shell].format(name)}"
            os.makedirs(os.path.dirname(path), exist_ok=True)
            with open(path, "w", encoding="utf-8") as it:
                it.write(write(name, lines))


main()
