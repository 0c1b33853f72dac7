# Completions of the command h3 for bash.
# made from h3 --help (tools/pages)
_h3_commands='isValidCell getResolution getBaseCellNumber isPentagon isResClassIII getNumCells getRes0Cells getPentagons cellToParent cellToCenterChild cellToLastChild cellToChildren cellToChildrenSize cellToChildPos childPosToCell gridDiskUnsafe gridDiskDistancesUnsafe gridRingUnsafe areNeighborCells cellsToDirectedEdge getDirectedEdgeDestination isValidDirectedEdge getDirectedEdgeOrigin originToDirectedEdges compactCells uncompactCells uncompactCellsSize uniteCells intersectCells subtractCells areCoveredCells cellsToZones countCellsInZones countCellsInParents areValidCells areValidDirectedEdges getResolutions getBaseCellNumbers arePentagons areResClassIII cellsToParents cellsToCenterChildren cellsToLastChildren cellsToChildren cellsToChildrenSizes cellsToChildPositions gridDisksUnsafe gridDisksDistancesUnsafe gridRingsUnsafe getDirectedEdgeOrigins getDirectedEdgeDestinations originsToDirectedEdges'
_h3_options() {
    case $1 in
        isValidCell | getResolution | getBaseCellNumber | isPentagon | isResClassIII | originToDirectedEdges) echo --cell ;;
        getNumCells | getPentagons | uncompactCells | uncompactCellsSize | countCellsInParents | cellsToParents | cellsToCenterChildren | cellsToLastChildren | cellsToChildren | cellsToChildrenSizes | cellsToChildPositions) echo --resolution ;;
        cellToParent | cellToCenterChild | cellToLastChild | cellToChildren | cellToChildrenSize | cellToChildPos) echo --cell --resolution ;;
        childPosToCell) echo --position --cell --resolution ;;
        gridDiskUnsafe | gridDiskDistancesUnsafe | gridRingUnsafe) echo --cell -k --table ;;
        areNeighborCells | cellsToDirectedEdge) echo --cell --to --table ;;
        getDirectedEdgeDestination) echo --edge --table ;;
        isValidDirectedEdge | getDirectedEdgeOrigin) echo --edge ;;
        intersectCells | subtractCells | areCoveredCells) echo --region ;;
        cellsToZones | countCellsInZones) echo --zones ;;
        gridDisksUnsafe | gridDisksDistancesUnsafe | gridRingsUnsafe) echo -k --table ;;
        getDirectedEdgeDestinations) echo --table ;;
    esac
}
_h3_rows() {
    case $1 in
        compactCells | uncompactCells | uniteCells) echo --by --by-field --field --column --header --separator --csv --ragged ;;
        uncompactCellsSize) echo --field --column --header --separator --csv --ragged ;;
        intersectCells | subtractCells) echo --region-column --region-field --by --by-field --field --column --header --separator --csv --ragged ;;
        areCoveredCells) echo --region-column --region-field --field --column --header --separator --csv --as --keep-going --errors --ragged ;;
        cellsToZones) echo --zone-column --zone-field --zone-name --zone-name-field --none --overlapping --field --column --header --separator --csv --as --keep-going --errors --ragged ;;
        countCellsInZones) echo --zone-column --zone-field --zone-name --zone-name-field --none --overlapping --sum --sum-field --field --column --header --separator --csv --ragged ;;
        countCellsInParents) echo --sum --sum-field --field --column --header --separator --csv --ragged ;;
        areValidCells | areValidDirectedEdges | getResolutions | getBaseCellNumbers | arePentagons | areResClassIII | cellsToParents | cellsToCenterChildren | cellsToLastChildren | cellsToChildren | cellsToChildrenSizes | cellsToChildPositions | gridDisksUnsafe | gridDisksDistancesUnsafe | gridRingsUnsafe | getDirectedEdgeOrigins | getDirectedEdgeDestinations | originsToDirectedEdges) echo --field --column --header --separator --csv --as --keep-going --errors --ragged ;;
    esac
}
# end of what is made (tools/pages)

_h3() {
    local word=${COMP_WORDS[COMP_CWORD]} before=${COMP_WORDS[COMP_CWORD - 1]} command=${COMP_WORDS[1]} options
    COMPREPLY=()
    # (after a redirection stands a file, whose name is bash's own to complete; `2>` comes as one word or as two)
    if [[ $before =~ ^[0-9]*[\<\>\&]+[\|]?$ && $before != '&' ]]; then
        compopt -o default
        return
    fi
    if [ "$COMP_CWORD" -eq 1 ]; then
        mapfile -t COMPREPLY < <(compgen -W "$_h3_commands --help --version" -- "$word")
        return
    fi
    # (bash gives --table=FILE as three words)
    if [ "$word" = = ]; then
        word=
    elif [ "$before" = = ]; then
        before=${COMP_WORDS[COMP_CWORD - 2]}
    fi
    case $before in
        --table | --region | --zones)
            # the names of files are bash's own to complete
            compopt -o default
            return
            ;;
        -r | --resolution)
            mapfile -t COMPREPLY < <(compgen -W "$(echo {0..15})" -- "$word")
            return
            ;;
        -c | --cell | -k | --to | --position | --edge | --field | --column | --separator | --as) return ;;
        --region-* | --zone-* | --none | --sum | --sum-field | --by | --by-field) return ;;
    esac
    options=$(_h3_options "$command")
    # (a command that requires no options awaits nothing)
    if [ -n "$word$options" ]; then
        mapfile -t COMPREPLY < <(compgen -W "$options $(_h3_rows "$command") --help" -- "$word")
    fi
}
complete -F _h3 h3
