# Completion of bplint for bash.

# Sets `operands` to the words before the current one that are no options, without their quotes. `--explain=always` is
# three words.
_bplint_operands() {
  local word previous=''
  operands=()
  for word in "${COMP_WORDS[@]:2:COMP_CWORD-2}"; do
    if [[ $word == - || $word != [-=]* ]] && [[ $previous != @(--limit|--limit-bytes|--paths-from|--files-from|=) ]]; then
      word=${word//\\/}
      word=${word#[\"\']}
      operands+=("${word%[\"\']}")
    fi
    previous=$word
  done
}

# Offers the paths of the file among the operands, if the current word can be one. `bplint ls` lists what is below its
# last step.
_bplint_paths() {
  local program=$1 current=${COMP_WORDS[COMP_CWORD]} least=1 quote='' path hex=() operands
  case ${COMP_WORDS[1]} in
    show | ls) ;;
    get | print) least=2 ;;
    *) return 1 ;;
  esac
  _bplint_operands
  [[ $current == [\"\']* ]] && quote=${current:0:1} && current=${current:1}
  [[ ${#operands[@]} -ge $least && $current == /* ]] || return 1
  [[ " ${COMP_WORDS[*]} " == *\ @(-x|--hex)\ * ]] && hex=(--hex)
  current=${current//\\/}
  compopt +o filenames -o nospace 2>/dev/null
  COMPREPLY=()
  while IFS= read -r path; do
    [[ $path == "$current"* ]] || continue
    [[ $quote ]] || printf -v path %q "$path"
    COMPREPLY+=("$path")
  done < <("$program" ls "${hex[@]}" -- "${operands[0]/#\~\//$HOME/}" "${current%/*}" 2>/dev/null | cut -f1)
}

_bplint() {
  local current=${COMP_WORDS[COMP_CWORD]} verb=${COMP_WORDS[1]}
  if [[ $COMP_CWORD -eq 1 ]]; then
    mapfile -t COMPREPLY < <(compgen -W "lint show ls map textconv explain certify check get print help --help --version -h -V" -- "$current")
    return
  fi
  if [[ $verb == help ]]; then
    [[ $COMP_CWORD -gt 2 ]] || mapfile -t COMPREPLY < <(compgen -W "lint show ls map textconv explain certify check get print" -- "$current")
  elif [[ " ${COMP_WORDS[*]:COMP_CWORD-2:3}" == *' --explain ='* ]]; then
    mapfile -t COMPREPLY < <(compgen -W "always never auto" -- "${current#=}")
  elif [[ $current == -* ]]; then
    local flags
    case $verb in
      lint) flags="--hex --quiet --recursive --all --skip-other --list --null --files-from --json --summary --with-filename --explain --help -x -H -h -q -r -l -0" ;;
      show) flags="--hex --text --limit --raw --utf8 --readable --paths-from --files-from --with-filename --explain --help -x -H -h" ;;
      ls) flags="--hex --recursive --limit --limit-bytes --json --objects --utf8 --readable --sort --tree --files-from --with-filename --explain --help -x -H -h -R" ;;
      certify) flags="--hex --sorted --force --with-filename --explain --help -x -H -h" ;;
      get) flags="--hex --paths-from --with-filename --explain --help -x -H -h" ;;
      map) flags="--hex --paths --with-filename --explain --help -x -H -h" ;;
      check | print) flags="--hex --with-filename --explain --help -x -H -h" ;;
      textconv) flags="--with-filename --explain --help -H -h" ;;
      explain) flags="--help -h" ;;
      *) flags="" ;;
    esac
    mapfile -t COMPREPLY < <(compgen -W "$flags" -- "$current")
  elif [[ $verb == explain ]]; then
    mapfile -t COMPREPLY < <(compgen -W "TooLarge TooShort Magic NoObjects Top TableEarly TableLate OffsetSize RefSize Length RefNarrow OffsetNarrow OffsetHigh OffsetLow Marker Count Extent NotAscii UidLarge RefHigh KeyKind KeyTwice Circle CertMagic CertLength CertCount TopNotVouched ChildNotVouched HeightNotLess PathText Overfull KeyOrder" -- "$current")
  elif ! _bplint_paths "$1"; then
    mapfile -t COMPREPLY < <(compgen -f -- "$current")
  fi
}
complete -o filenames -F _bplint bplint
