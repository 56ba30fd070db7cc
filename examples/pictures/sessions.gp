# Who was logged in when, a bar for each session on a line of its own: tally last --csv FILE > stays.csv, then gnuplot sessions.gp
table = exists("table") ? table : "stays.csv"
lines = system("awk -F, 'NR > 1 && $3 != \"\" && !seen[$3]++ { print $3 }' " . table)
users = system("awk -F, 'NR > 1 && $3 != \"\" && !seen[$2]++ { print $2 }' " . table)
line(name) = sum [at = 1 : words(lines)] (word(lines, at) eq name ? at : 0)
of(user) = "< awk -F, -v user='" . user . "' 'NR > 1 && $2 == user && $3 != \"\" { print $5, $9, $3, $2 }' " . table
set title "Who was logged in when (UTC)"
set xdata time
set timefmt "%s"
set format x "%d %b\n%H:%M"
set ytics ()
do for [at = 1 : words(lines)] { set ytics add (word(lines, at) at) }
set yrange [0.4 : words(lines) + 0.6]
set style fill solid 0.8 border lt -1
set grid xtics
set key outside right
plot for [at = 1 : words(users)] of(word(users, at)) using (($1 + $2) / 2):(line(strcol(3))):1:2:(line(strcol(3)) - 0.3):(line(strcol(3)) + 0.3) \
    with boxxyerror lt at title word(users, at)
