# Completes the words of the commands beside vp in bash; written by tools/docs/commands.py.
_vp_tools() {
    local word=${COMP_WORDS[COMP_CWORD]} before=${COMP_WORDS[COMP_CWORD - 1]} tool=${COMP_WORDS[0]##*/}
    local options='' only='' it
    case $tool:$before in
    vp-device:--listen) options='' only=yes ;;
    vp-device:--port) options='' only=yes ;;
    vp-device:--http) options='' only=yes ;;
    vp-device:--token) options='' only=yes ;;
    vp-device:--state) options='' only=yes ;;
    vp-device:--script) options='' only=yes ;;
    vp-device:--busy) options='window xoff' only=yes ;;
    vp-device:--buffer) options='' only=yes ;;
    vp-device:--language) options='receipt label' only=yes ;;
    vp-device:--idle) options='' only=yes ;;
    vp-device:--at-once) options='' only=yes ;;
    vp-device:--store) options='' only=yes ;;
    vp-device:--most-rows) options='' only=yes ;;
    vp-device:--most-bytes) options='' only=yes ;;
    vp-device:--most-images) options='' only=yes ;;
    vp-device:--most-seconds) options='' only=yes ;;
    vp-expand:--lang) options='receipt label' only=yes ;;
    vp-expand:--table) options='' only=yes ;;
    vp-expand:--from) options='' only=yes ;;
    vp-expand:--now) options='' only=yes ;;
    vp-face:--wide) options='' only=yes ;;
    vp-face:--between) options='' only=yes ;;
    vp-face:--table) options='' only=yes ;;
    vp-face:--chars) options='' only=yes ;;
    vp-face:--text) options='' only=yes ;;
    vp-golden:--ignore) options='' only=yes ;;
    vp-golden:--most-rows) options='' only=yes ;;
    vp-golden:--most-bytes) options='' only=yes ;;
    vp-golden:--most-images) options='' only=yes ;;
    vp-golden:--most-seconds) options='' only=yes ;;
    vp-golden:vp-golden | vp-golden:*/vp-golden) options='check accept --help' only=yes ;;
    vp-job:--most-rows) options='' only=yes ;;
    vp-job:--most-bytes) options='' only=yes ;;
    vp-job:--most-images) options='' only=yes ;;
    vp-job:--most-seconds) options='' only=yes ;;
    vp-lint:--lang) options='receipt label' only=yes ;;
    vp-lint:--most-rows) options='' only=yes ;;
    vp-lint:--most-bytes) options='' only=yes ;;
    vp-lint:--most-images) options='' only=yes ;;
    vp-lint:--most-seconds) options='' only=yes ;;
    vp-many:--on) options='' only=yes ;;
    vp-many:--lang) options='receipt label' only=yes ;;
    vp-many:--most-rows) options='' only=yes ;;
    vp-many:--most-bytes) options='' only=yes ;;
    vp-many:--most-images) options='' only=yes ;;
    vp-many:--most-seconds) options='' only=yes ;;
    vp-paper:--dpmm) options='' only=yes ;;
    vp-paper:--most-rows) options='' only=yes ;;
    vp-paper:--most-bytes) options='' only=yes ;;
    vp-paper:--most-images) options='' only=yes ;;
    vp-paper:--most-seconds) options='' only=yes ;;
    vp-print:--most-rows) options='' only=yes ;;
    vp-print:--words) options='' only=yes ;;
    vp-print:--table) options='' only=yes ;;
    vp-print:--from) options='' only=yes ;;
    vp-print:--in-process) options='' only=yes ;;
    vp-sheet:--font) options='a b' only=yes ;;
    vp-sheet:--table) options='' only=yes ;;
    vp-show:--lang) options='receipt label' only=yes ;;
    vp-show:--table) options='' only=yes ;;
    vp-show:--from) options='' only=yes ;;
    vp-show:--most-rows) options='' only=yes ;;
    vp-show:--most-bytes) options='' only=yes ;;
    vp-show:--most-images) options='' only=yes ;;
    vp-show:--most-seconds) options='' only=yes ;;
    vp-text:--lang) options='receipt label' only=yes ;;
    vp-text:--table) options='' only=yes ;;
    vp-text:--most-rows) options='' only=yes ;;
    vp-text:--most-bytes) options='' only=yes ;;
    vp-text:--most-images) options='' only=yes ;;
    vp-text:--most-seconds) options='' only=yes ;;
    vp-viewer:--lang) options='receipt label' only=yes ;;
    vp-viewer:--width) options='576 384' only=yes ;;
    vp-viewer:--port) options='' only=yes ;;
    *)
        # a file, unless an option is begun
        case $tool:$word in
        vp-device:-*) options='--help --listen --port --http --token --state --state-file --script --busy --buffer --language --idle --at-once --while-stdin --share --store --expand --as-it-came --most-rows --most-bytes --most-images --most-seconds' ;;
        vp-expand:-*) options='--help --lang --table --from --nearest --keep-sizes --map --store --now --font-a --tell' ;;
        vp-face:-*) options='--help --wide --between --table --chars --text' ;;
        vp-golden:-*) options='--help --report --junit --ignore --incomplete --prune --as-it-came --most-rows --most-bytes --most-images --most-seconds' ;;
        vp-job:-*) options='--help --expand --as-it-came --most-rows --most-bytes --most-images --most-seconds' ;;
        vp-lint:-*) options='--help --lang --font-a --font-b --known --write-known --as-it-came --most-rows --most-bytes --most-images --most-seconds' ;;
        vp-many:-*) options='--resume --sums --on --expand --as-it-came --lang --most-rows --most-bytes --most-images --most-seconds --help' ;;
        vp-paper:-*) options='--help --each --dpmm --most-rows --most-bytes --most-images --most-seconds' ;;
        vp-past:-*) options='--as-it-came --most-rows --whole --most-bytes --most-images --most-seconds --help' ;;
        vp-print:-*) options='--most-rows --as-it-came --most-bytes --most-images --most-seconds --guess --words --languages --expand --table --from --batch --sums --in-process --help' ;;
        vp-sheet:-*) options='--help --font --table --face --blank' ;;
        vp-show:-*) options='--help --lang --font-a --font-b --to --as-it-came --table --from --open --most-rows --most-bytes --most-images --most-seconds' ;;
        vp-text:-*) options='--help --lang --table --as-it-came --most-rows --most-bytes --most-images --most-seconds' ;;
        vp-viewer:-*) options='--help --lang --width --font-a --font-b --port --as-it-came --open' ;;
        esac
        ;;
    esac
    COMPREPLY=()
    if [ -n "$options$only" ]; then
        while IFS= read -r it; do COMPREPLY+=("$it"); done < <(compgen -W "$options" -- "$word")
    else
        compopt -o filenames 2>/dev/null
        while IFS= read -r it; do COMPREPLY+=("$it"); done < <(compgen -f -- "$word")
    fi
}
complete -F _vp_tools vp-device vp-expand vp-face vp-golden vp-job vp-lint vp-many vp-paper vp-past vp-print vp-sheet vp-show vp-text vp-viewer
