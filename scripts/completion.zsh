#compdef coizkerra
# Completion for zsh: subcommands and their flags, which the program tells itself, packages and trees.

_coizkerra() {
  local program=${words[1]} command=${words[2]} root=/ index
  for ((index = 2; index < CURRENT; index++)); do
    case ${words[index]} in
    --root) root=${words[index + 1]} ;;
    --root=*) root=${words[index]#--root=} ;;
    esac
  done
  local -a found
  if ((CURRENT == 2)); then
    found=(${(f)"$($program 2>/dev/null)"} --help --version)
    compadd -a found
    return
  fi
  case ${words[CURRENT - 1]} in
  --root | --tree) _files -/; return ;;
  --log) _files; return ;;
  esac
  if [[ ${words[CURRENT]} == -* ]]; then
    found=(${(f)"$($program help $command 2>/dev/null | sed -n 's/^  \(--[a-z-]*\).*/\1/p')"} --help)
    compadd -a found
    return
  fi
  case $command in
  help) found=(${(f)"$($program 2>/dev/null)"}); compadd -a found ;;
  unpack | install) _files ;;
  configure | remove | purge | list | selections | status | listfiles | verify)
    found=(${(f)"$($program list --root $root 2>/dev/null | cut -d' ' -f1)"})
    compadd -a found
    ;;
  select)
    if compset -P '*='; then
      compadd install hold deinstall purge
    else
      found=(${(f)"$($program list --root $root 2>/dev/null | cut -d' ' -f1)"})
      compadd -S = -a found
    fi
    ;;
  *) _files ;;
  esac
}

_coizkerra "$@"
