# Completions of crashbpf for bash. Made by tools/completions.py of the program's help.
_crashbpf() {
    local word=${COMP_WORDS[COMP_CWORD]} before=${COMP_WORDS[COMP_CWORD - 1]} words=
    COMPREPLY=()
    [ "$word" != = ] || word=
    [ "$before" != = ] || before=${COMP_WORDS[COMP_CWORD - 2]}
    case "$COMP_CWORD ${COMP_WORDS[1]} $before" in
    1\ *) words='explore why cure page images export image show log import verify check asm list join help -h --help -V --version' ;;
    *\ help\ *) words='explore why cure page images export image show log import verify check asm list join help' ;;
    *\ explore\ --cuts) words='all flush mark' ;;
    *\ explore\ --by) words='sector write' ;;
    *\ explore\ --base|*\ explore\ --known) : ;;
    *\ explore\ --sectors|*\ explore\ --flush|*\ explore\ --from|*\ explore\ --to|*\ explore\ --bound|*\ explore\ --workers|*\ explore\ --cache|*\ explore\ --checked|*\ explore\ --torn|*\ explore\ --at-most|*\ explore\ --cases|*\ explore\ --images) return ;;
    *\ explore\ *) [[ $word != -* ]] || words='--sectors --large --flush --base --cuts --from --to --bound --tears --by --workers --cache --checked --guards --progress --torn --at-most --known --stop-at-failing --cases --first --inputs --images -h --help' ;;
    *\ why\ --cuts) words='all flush mark' ;;
    *\ why\ --by) words='sector write' ;;
    *\ why\ --base|*\ why\ --report) : ;;
    *\ why\ --sectors|*\ why\ --flush|*\ why\ --from|*\ why\ --to|*\ why\ --bound|*\ why\ --workers|*\ why\ --cache|*\ why\ --checked|*\ why\ --torn|*\ why\ --at-most) return ;;
    *\ why\ *) [[ $word != -* ]] || words='--sectors --large --flush --base --cuts --from --to --bound --tears --by --workers --cache --checked --guards --progress --report --torn --at-most -h --help' ;;
    *\ cure\ --cuts) words='all flush mark' ;;
    *\ cure\ --by) words='sector write' ;;
    *\ cure\ --base|*\ cure\ --report) : ;;
    *\ cure\ --sectors|*\ cure\ --flush|*\ cure\ --from|*\ cure\ --to|*\ cure\ --bound|*\ cure\ --workers|*\ cure\ --cache|*\ cure\ --checked|*\ cure\ --torn|*\ cure\ --at-most) return ;;
    *\ cure\ *) [[ $word != -* ]] || words='--sectors --large --flush --base --cuts --from --to --bound --tears --by --workers --cache --checked --guards --progress --report --torn --at-most -h --help' ;;
    *\ page\ --cuts) words='all flush mark' ;;
    *\ page\ --by) words='sector write' ;;
    *\ page\ --base|*\ page\ --report) : ;;
    *\ page\ --sectors|*\ page\ --flush|*\ page\ --from|*\ page\ --to|*\ page\ --bound|*\ page\ --workers|*\ page\ --cache|*\ page\ --checked|*\ page\ --torn|*\ page\ --at-most) return ;;
    *\ page\ *) [[ $word != -* ]] || words='--sectors --large --flush --base --cuts --from --to --bound --tears --by --workers --cache --checked --guards --progress --report --torn --at-most -h --help' ;;
    *\ images\ --cuts) words='all flush mark' ;;
    *\ images\ --by) words='sector write' ;;
    *\ images\ --base) : ;;
    *\ images\ --sectors|*\ images\ --flush|*\ images\ --from|*\ images\ --to|*\ images\ --bound|*\ images\ --at-most|*\ images\ --parts) return ;;
    *\ images\ *) [[ $word != -* ]] || words='--sectors --large --flush --base --cuts --from --to --bound --tears --by --images --at-most --parts -h --help' ;;
    *\ export\ --cuts) words='all flush mark' ;;
    *\ export\ --by) words='sector write' ;;
    *\ export\ --base|*\ export\ --known) : ;;
    *\ export\ --sectors|*\ export\ --flush|*\ export\ --from|*\ export\ --to|*\ export\ --bound|*\ export\ --images|*\ export\ --torn|*\ export\ --at-most|*\ export\ --cases) return ;;
    *\ export\ *) [[ $word != -* ]] || words='--sectors --large --flush --base --cuts --from --to --bound --tears --by --images --torn --at-most --known --stop-at-failing --cases -h --help' ;;
    *\ image\ --cuts) words='all flush mark' ;;
    *\ image\ --by) words='sector write' ;;
    *\ image\ --base) : ;;
    *\ image\ --sectors|*\ image\ --flush|*\ image\ --from|*\ image\ --to|*\ image\ --bound|*\ image\ --cut|*\ image\ --choice) return ;;
    *\ image\ *) [[ $word != -* ]] || words='--sectors --large --flush --base --cuts --from --to --bound --tears --by --cut --choice --images -h --help' ;;
    *\ show\ --cuts) words='all flush mark' ;;
    *\ show\ --by) words='sector write' ;;
    *\ show\ --base) : ;;
    *\ show\ --sectors|*\ show\ --flush|*\ show\ --from|*\ show\ --to|*\ show\ --bound|*\ show\ --cut|*\ show\ --choice) return ;;
    *\ show\ *) [[ $word != -* ]] || words='--sectors --large --flush --base --cuts --from --to --bound --tears --by --cut --choice --images -h --help' ;;
    *\ log\ --base) : ;;
    *\ log\ --sectors|*\ log\ --flush) return ;;
    *\ log\ *) [[ $word != -* ]] || words='--sectors --large --flush --base -h --help' ;;
    *\ import\ *) [[ $word != -* ]] || words='--large -h --help' ;;
    *\ verify\ --sectors) return ;;
    *\ verify\ *) [[ $word != -* ]] || words='--sectors --large --guards --list -h --help' ;;
    *\ check\ --lines) : ;;
    *\ check\ --epoch|*\ check\ --marks|*\ check\ --checked|*\ check\ --trace) return ;;
    *\ check\ *) [[ $word != -* ]] || words='--large --epoch --marks --checked --guards --trace --lines -h --help' ;;
    *\ asm\ *) [[ $word != -* ]] || words='-h --help' ;;
    *\ list\ *) [[ $word != -* ]] || words='--slots -h --help' ;;
    *\ join\ *) [[ $word != -* ]] || words='--part -h --help' ;;
    esac
    if [ -n "$words" ]; then
        mapfile -t COMPREPLY < <(compgen -W "$words" -- "$word")
    else
        compopt -o filenames
        mapfile -t COMPREPLY < <(compgen -f -- "$word")
    fi
}
complete -F _crashbpf crashbpf
