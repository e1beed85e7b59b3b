# bash completion of servient and file_gateway
_servient() {
    local word=${COMP_WORDS[COMP_CWORD]} before=${COMP_WORDS[COMP_CWORD-1]} first=1 command options=
    [ "${COMP_WORDS[0]##*/}" = file_gateway ] && first=2
    command=${COMP_WORDS[first]}
    if [ "$COMP_CWORD" -lt "$first" ]; then
        mapfile -t COMPREPLY < <(compgen -f -- "$word")
        return
    elif [ "$COMP_CWORD" -eq "$first" ]; then
        mapfile -t COMPREPLY < <(compgen -W 'serve derive check replay consume discover storm' -- "$word")
        return
    fi
    case $before in
        --scheme) mapfile -t COMPREPLY < <(compgen -W 'http coap' -- "$word"); return ;;
        --events | --idle | --count) return ;;
    esac
    case $command in
        serve) options='--endless --events --idle --log' ;;
        derive) options=--table ;;
        replay) options=--events ;;
        consume) options='--scheme --input --count' ;;
    esac
    if [ "${word#-}" != "$word" ]; then
        mapfile -t COMPREPLY < <(compgen -W "$options" -- "$word")
    elif [ "$command" = consume ] && [ "$COMP_CWORD" -eq $((first + 2)) ]; then
        mapfile -t COMPREPLY < <(compgen -W 'readproperty writeproperty observeproperty invokeaction readallproperties' -- "$word")
    elif [ "$command" != discover ] && [ "$command" != storm ]; then
        mapfile -t COMPREPLY < <(compgen -f -- "$word")
    fi
}
complete -o filenames -F _servient servient file_gateway
