# Connect time by day and user, stacked: tally ac -d -p --csv FILE > days.csv, then gnuplot connect.gp
table = exists("table") ? table : "days.csv"
users = system("awk -F, 'NR > 1 && !seen[$2]++ { print $2 }' " . table)
of(user) = "< awk -F, -v user='" . user . "' 'NR > 1 { days[$1]; if ($2 == user) hours[$1] = $3 / 3600 } " \
    . "END { for (day in days) print day, hours[day] + 0 | \"sort\" }' " . table
set title "Connect time by day and user"
set ylabel "hours"
set style data histograms
set style histogram rowstacked
set style fill solid 0.8 border lt -1
set boxwidth 0.7
set grid ytics
set key outside right
set xtics rotate by -30
plot for [user in users] of(user) using 2:xtic(1) title user
