#compdef par2
# Words of par2 for zsh: commands, options, par files as the base, and files.

local -a commands=(
    'create:protect files of this folder by recovery volumes'
    'verify:say which files of a set are complete, and whether the others can be repaired'
    'repair:give the files of a set back'
    'purge:remove the par files of a complete set'
    'undo:take the last create, repair or purge back'
    'redo:do again what the last undo took back'
)
local -a base=('1:par file:_files -g "*.par2"') files=('*:file:_files')

if (( CURRENT == 2 )); then
    _describe -t commands command commands
    return
fi
local command=$words[2]
shift words
(( CURRENT-- ))
case $command in
    create)
        _arguments '-s-[bytes of a slice, a multiple of 4]:bytes' '-c-[number of recovery slices]:number' \
            '-f-[exponent of the first recovery slice]:exponent' '--overwrite[replace outputs that exist]' $base $files
        ;;
    verify) _arguments $base $files ;;
    repair) _arguments '-p[purge after the repair]' $base $files ;;
    purge) _arguments $base ;;
esac
