"""What a shell offers while a command is typed, as scripts for bash and zsh."""
from collections import namedtuple

from lineup.refusals import REFUSALS

# a command: its summary, its options as (words, whether a file follows, help), and the words that it takes in place of files
Offer = namedtuple("Offer", "summary options words")


def offers(top, modules):
    """What each command takes, by its name."""
    from lineup import cli  # which reads the commands

    found = {}
    for name, module in modules.items():
        actions = [action for action in cli.command(top, name)._actions if action.option_strings]
        options = [(action.option_strings, action.nargs is None, action.help or "") for action in actions]
        found[name] = Offer(module.SUMMARY, options, WORDS.get(name, lambda modules: [])(modules))
    return found


WORDS = {
    "completion": lambda modules: sorted(SHELLS),
    "explain": lambda modules: [str(number) for number in sorted(REFUSALS)],
    "help": lambda modules: [*modules, *(str(number) for number in sorted(REFUSALS))],
}


def bash(found):
    """Files are bash's own to complete: where this offers nothing, it does."""
    cases = []
    for name, offer in found.items():
        options = " ".join(word for words, _, _ in offer.options for word in words)
        cases.append(f"        {name}) options='{options}' words='{' '.join(offer.words)}' ;;\n")
    return f"""# bash completion for lineup: source <(lineup completion bash), or a file 'lineup' in bash-completion's folder
_lineup() {{
    local word=${{COMP_WORDS[COMP_CWORD]}} options words i command=
    for ((i = 1; i < COMP_CWORD; i++)); do
        if [[ ${{COMP_WORDS[i]}} != -* ]]; then
            command=${{COMP_WORDS[i]}}
            break
        fi
    done
    case $command in
        '') options='--version --help' words='{" ".join(found)}' ;;
{"".join(cases)}        *) return ;;
    esac
    [[ $word == -* ]] && words=$options
    [[ ${{COMP_WORDS[COMP_CWORD - 1]}} == -o ]] && words=
    COMPREPLY=($(compgen -W "$words" -- "$word"))
}}
complete -o default -F _lineup lineup
"""


def zsh(found):
    """Descriptions stand in single quotes; what zsh reads in them has a backslash."""
    commands = "".join(f"    '{name}:{escaped(offer.summary, ':')}'\n" for name, offer in found.items())
    cases = []
    for name, offer in found.items():
        specs = [f"'{word}[{escaped(text, '[]:')}]{':file:_files' if file else ''}'" for words, file, text in offer.options for word in words]
        last = f"'*:word:({' '.join(offer.words)})'" if offer.words else "'*:file:_files'"
        cases.append(f"    {name}) _arguments -s {' '.join([*specs, last])} ;;\n")
    return f"""#compdef lineup
# zsh completion for lineup: a file '_lineup' in a folder of $fpath, or source <(lineup completion zsh)
_lineup() {{
  local -a commands
  commands=(
{commands}  )
  if (( CURRENT == 2 )); then
    _describe command commands
    _arguments '--version[tell the version]' '--help[tell the usage]'
    return
  fi
  local command=$words[2]
  shift words
  (( CURRENT-- ))
  case $command in
{"".join(cases)}  esac
}}
if [[ $funcstack[1] = _lineup ]]; then
  _lineup "$@"
else
  compdef _lineup lineup
fi
"""


def escaped(text, special):
    """A text for single quotes, with a backslash before what is special."""
    for sign in "\\" + special:
        text = text.replace(sign, "\\" + sign)
    return text.replace("'", "'\\''")


SHELLS = {"bash": bash, "zsh": zsh}
