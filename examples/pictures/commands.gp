# Processor time by command, the most first: tally sa --csv FILE > commands.csv, then gnuplot commands.gp
table = exists("table") ? table : "commands.csv"
set datafile separator ","
set title "Processor time by command"
set ylabel "seconds"
set style fill solid 0.8 border lt -1
set boxwidth 0.7
set grid ytics
set yrange [0 : *]
set xtics rotate by -30
unset key
plot table using 0:($6 / 100):xtic(1) every ::1 with boxes
