# tkscid tests/read-with-scid.tcl BASE FILE: imports the games of FILE into a new base of scid, and prints them as scid holds them; what the import warns of goes to standard error.
lassign $argv base file
foreach made [glob -nocomplain $base.*] { file delete $made }
set id [sc_base create $base]
lassign [sc_base import $id $file] count warnings
if {$warnings ne ""} { puts stderr $warnings }
for {set number 1} {$number <= [sc_base numGames $id]} {incr number} {
    sc_game load $number
    puts [sc_game pgn -tags 0 -comments 0 -var 1 -symbols 0 -width 79]
}
exit 0
