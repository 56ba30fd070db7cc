-- The tables of tally, for sqlite3: numbers are numbers. A table has the name of its report, and of what has columns of its own.
--
--     tally last --csv --paths hosts/*/wtmp |
--       sqlite3 -cmd '.read tables.sql' -cmd '.import --csv --skip 1 /dev/stdin last_paths' logins.db ''
--
-- It may be read again: a table that is there stays. A sum of more than 63 bits, as mem_cpu may be, is kept as a REAL.

-- last --csv
CREATE TABLE IF NOT EXISTS last (
  file INTEGER, user TEXT, line TEXT, remote TEXT, start INTEGER, start_at TEXT, begin INTEGER, "end" TEXT,
  end_time INTEGER, end_at TEXT, seconds INTEGER
);

-- last --csv with --from, --to or --in
CREATE TABLE IF NOT EXISTS last_within (
  file INTEGER, user TEXT, line TEXT, remote TEXT, start INTEGER, start_at TEXT, begin INTEGER, "end" TEXT,
  end_time INTEGER, end_at TEXT, seconds INTEGER, within INTEGER
);

-- last --csv --paths
CREATE TABLE IF NOT EXISTS last_paths (
  file INTEGER, path TEXT, user TEXT, line TEXT, remote TEXT, start INTEGER, start_at TEXT, begin INTEGER, "end" TEXT,
  end_time INTEGER, end_at TEXT, seconds INTEGER
);

-- last --csv --paths with --from, --to or --in
CREATE TABLE IF NOT EXISTS last_paths_within (
  file INTEGER, path TEXT, user TEXT, line TEXT, remote TEXT, start INTEGER, start_at TEXT, begin INTEGER, "end" TEXT,
  end_time INTEGER, end_at TEXT, seconds INTEGER, within INTEGER
);

-- lastb --csv
CREATE TABLE IF NOT EXISTS lastb (
  file INTEGER, user TEXT, line TEXT, remote TEXT, time INTEGER, at TEXT
);

-- lastb --csv --paths
CREATE TABLE IF NOT EXISTS lastb_paths (
  file INTEGER, path TEXT, user TEXT, line TEXT, remote TEXT, time INTEGER, at TEXT
);

-- lastb --sum --csv
CREATE TABLE IF NOT EXISTS lastb_sum (
  user TEXT, remote TEXT, attempts INTEGER
);

-- ac --csv
CREATE TABLE IF NOT EXISTS ac (
  seconds INTEGER
);

-- ac -d --csv
CREATE TABLE IF NOT EXISTS ac_day (
  day TEXT, seconds INTEGER
);

-- ac -p --csv
CREATE TABLE IF NOT EXISTS ac_user (
  user TEXT, seconds INTEGER
);

-- ac -d -p --csv
CREATE TABLE IF NOT EXISTS ac_day_user (
  day TEXT, user TEXT, seconds INTEGER
);

-- sa --csv
CREATE TABLE IF NOT EXISTS sa (
  command TEXT, forked INTEGER, other INTEGER, calls INTEGER, real_ticks INTEGER, cpu_ticks INTEGER, io INTEGER,
  mem_cpu INTEGER
);

-- sa -m --csv
CREATE TABLE IF NOT EXISTS sa_user (
  uid INTEGER, calls INTEGER, real_ticks INTEGER, cpu_ticks INTEGER, io INTEGER, mem_cpu INTEGER
);

-- sa -m --names FILE --csv
CREATE TABLE IF NOT EXISTS sa_user_names (
  uid INTEGER, name TEXT, calls INTEGER, real_ticks INTEGER, cpu_ticks INTEGER, io INTEGER, mem_cpu INTEGER
);

-- ac --by-file --csv
CREATE TABLE IF NOT EXISTS ac_by_file (
  file INTEGER, seconds INTEGER
);

-- ac --by-file --csv --paths
CREATE TABLE IF NOT EXISTS ac_by_file_paths (
  file INTEGER, path TEXT, seconds INTEGER
);

-- ac -d --by-file --csv
CREATE TABLE IF NOT EXISTS ac_day_by_file (
  file INTEGER, day TEXT, seconds INTEGER
);

-- ac -d --by-file --csv --paths
CREATE TABLE IF NOT EXISTS ac_day_by_file_paths (
  file INTEGER, path TEXT, day TEXT, seconds INTEGER
);

-- ac -p --by-file --csv
CREATE TABLE IF NOT EXISTS ac_user_by_file (
  file INTEGER, user TEXT, seconds INTEGER
);

-- ac -p --by-file --csv --paths
CREATE TABLE IF NOT EXISTS ac_user_by_file_paths (
  file INTEGER, path TEXT, user TEXT, seconds INTEGER
);

-- ac -d -p --by-file --csv
CREATE TABLE IF NOT EXISTS ac_day_user_by_file (
  file INTEGER, day TEXT, user TEXT, seconds INTEGER
);

-- ac -d -p --by-file --csv --paths
CREATE TABLE IF NOT EXISTS ac_day_user_by_file_paths (
  file INTEGER, path TEXT, day TEXT, user TEXT, seconds INTEGER
);

-- sa --by-file --csv
CREATE TABLE IF NOT EXISTS sa_by_file (
  file INTEGER, command TEXT, forked INTEGER, other INTEGER, calls INTEGER, real_ticks INTEGER, cpu_ticks INTEGER,
  io INTEGER, mem_cpu INTEGER
);

-- sa --by-file --csv --paths
CREATE TABLE IF NOT EXISTS sa_by_file_paths (
  file INTEGER, path TEXT, command TEXT, forked INTEGER, other INTEGER, calls INTEGER, real_ticks INTEGER,
  cpu_ticks INTEGER, io INTEGER, mem_cpu INTEGER
);

-- sa -m --by-file --csv
CREATE TABLE IF NOT EXISTS sa_user_by_file (
  file INTEGER, uid INTEGER, calls INTEGER, real_ticks INTEGER, cpu_ticks INTEGER, io INTEGER, mem_cpu INTEGER
);

-- sa -m --by-file --csv --paths
CREATE TABLE IF NOT EXISTS sa_user_by_file_paths (
  file INTEGER, path TEXT, uid INTEGER, calls INTEGER, real_ticks INTEGER, cpu_ticks INTEGER, io INTEGER,
  mem_cpu INTEGER
);

-- sa -m --names FILE --by-file --csv
CREATE TABLE IF NOT EXISTS sa_user_names_by_file (
  file INTEGER, uid INTEGER, name TEXT, calls INTEGER, real_ticks INTEGER, cpu_ticks INTEGER, io INTEGER,
  mem_cpu INTEGER
);

-- sa -m --names FILE --by-file --csv --paths
CREATE TABLE IF NOT EXISTS sa_user_names_by_file_paths (
  file INTEGER, path TEXT, uid INTEGER, name TEXT, calls INTEGER, real_ticks INTEGER, cpu_ticks INTEGER, io INTEGER,
  mem_cpu INTEGER
);

-- check --csv; what a file of its kind has not is an empty text
CREATE TABLE IF NOT EXISTS "check" (
  file INTEGER, kind TEXT, size INTEGER, records INTEGER, empty INTEGER, run_lvl INTEGER, boot_time INTEGER,
  new_time INTEGER, old_time INTEGER, init_process INTEGER, login_process INTEGER, user_process INTEGER,
  dead_process INTEGER, accounting INTEGER, version_2 INTEGER, version_3 INTEGER, first INTEGER, first_at TEXT,
  last INTEGER, last_at TEXT, open INTEGER, open_seconds INTEGER, crashed INTEGER, crashed_seconds INTEGER, zeros INTEGER,
  zeros_at_end INTEGER, first_zeros INTEGER, unknown INTEGER, first_unknown INTEGER, steps_back INTEGER,
  greatest_step INTEGER, rest INTEGER, doubtful INTEGER
);

-- check --csv --paths
CREATE TABLE IF NOT EXISTS check_paths (
  file INTEGER, path TEXT, kind TEXT, size INTEGER, records INTEGER, empty INTEGER, run_lvl INTEGER, boot_time INTEGER,
  new_time INTEGER, old_time INTEGER, init_process INTEGER, login_process INTEGER, user_process INTEGER,
  dead_process INTEGER, accounting INTEGER, version_2 INTEGER, version_3 INTEGER, first INTEGER, first_at TEXT,
  last INTEGER, last_at TEXT, open INTEGER, open_seconds INTEGER, crashed INTEGER, crashed_seconds INTEGER, zeros INTEGER,
  zeros_at_end INTEGER, first_zeros INTEGER, unknown INTEGER, first_unknown INTEGER, steps_back INTEGER,
  greatest_step INTEGER, rest INTEGER, doubtful INTEGER
);
