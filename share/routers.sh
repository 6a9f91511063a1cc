# What plan-from-routers and routes-from-routers share: they run scripts of awk, which stand beside this file, on the files of a
# folder.

# Ends with a line on standard error.
stop() {
    echo "${0##*/}: $1" >&2
    exit 1
}

# run_awk FOLDER SCRIPT ..: runs the scripts on the files of the folder, in the order of their names.
run_awk() {
    folder=$1
    shift
    [ -d "$folder" ] || stop "no such folder: $folder"
    case $folder in
    /*) ;;
    *) folder=./$folder ;;   # awk takes a name with a = for no file
    esac
    for script; do
        [ -r "$here/$script" ] || stop "no $script beside this script"
        set -- "$@" -f "$here/$script"
        shift
    done
    for file in "$folder"/*; do
        [ -e "$file" ] || stop "no router in $folder"
        case ${file##*/} in
        *[!A-Za-z0-9._-]*) stop "$file: this is no name of a router" ;;
        esac
        { [ -f "$file" ] && [ -r "$file" ]; } || stop "$file: this is no file that can be read"
        set -- "$@" "$file"
    done
    exec awk -v tool="${0##*/}" "$@"
}
