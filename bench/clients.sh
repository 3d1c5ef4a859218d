#!/usr/bin/env bash
# Runs usual clients before a real PostgreSQL 15, directly and through the proxy, and compares what they say.
#
# usage: bench/clients.sh [--relay] [--proxy PROGRAM] [--pod PROGRAM]
#
# Sets up a PostgreSQL server of its own in a temporary folder, as the user postgres where root runs this, and runs the
# same scripts of psql, pgbench (simple and prepared protocol), psycopg2 and JDBC through a plain relay (socat) and through
# `sqlproxy serve`, on free ports of this machine: logins by scram-sha-256, md5 and password, results, COPY, notices,
# notifications, cursors, prepared statements, errors and cancels. Then psql runs before `sqlpod`, directly and through
# the proxy, and what the small pod refuses is listed by its refusal.
#
#   --relay            puts a second socat in the proxy's place, to try this script without one; leaves out the small pod,
#                      which is left out too where there is no such program
#   --proxy, --pod     programs to run instead of bin/sqlproxy and bin/sqlpod
#
# Ends with a table. The status is 0 where all that ran said the same both ways; what isn't installed is left out with a
# line. Debian's packages: postgresql postgresql-client python3-psycopg2 libpostgresql-jdbc-java default-jdk-headless socat
set -eu
unset CDPATH
here=$(dirname -- "$(readlink -f -- "${BASH_SOURCE[0]}")")
proxy=$here/../bin/sqlproxy
pod=$here/../bin/sqlpod
relay=
usage() {
    sed -n '2,/^set -eu/{/^#/s/^# \{0,1\}//p}' "${BASH_SOURCE[0]}" >&2
    exit 2
}
while [ $# -gt 0 ]; do
    case $1 in
    --relay) relay=yes; shift ;;
    --proxy) [ $# -gt 1 ] || usage; proxy=$(realpath -- "$2"); shift 2 ;;
    --pod) [ $# -gt 1 ] || usage; pod=$(realpath -- "$2"); shift 2 ;;
    *) usage ;;
    esac
done

folder=$(mktemp -d)
chmod 755 "$folder"
pids=()
finish() {
    status=$?
    trap - EXIT INT TERM
    for pid in ${pids[@]+"${pids[@]}"}; do
        kill -INT "$pid" 2>/dev/null || kill "$pid" 2>/dev/null || true
        kill "$pid" 2>/dev/null || true
        wait "$pid" 2>/dev/null || true
    done
    rm -rf -- "$folder"
    exit "$status"
}
trap finish EXIT
trap 'exit 130' INT
trap 'exit 143' TERM

fail() { echo "$1" >&2; exit 1; }
has() { [ -n "$(type -P "$1")" ]; }
has psql || fail "psql isn't installed"
has socat || fail "socat isn't installed"
server=$(ls -d /usr/lib/postgresql/*/bin 2>/dev/null | sort -V | tail -n 1)
[ -n "$server" ] || fail "no PostgreSQL server is installed"

free_ports() {
    python3 - "$1" <<'P'
import socket, sys
held = [socket.create_server(("127.0.0.1", 0)) for _ in range(int(sys.argv[1]))]
print(*(it.getsockname()[1] for it in held))
P
}

wait_port() { # wait_port PORT WHAT
    for _ in $(seq 200); do
        if (exec 3<>"/dev/tcp/127.0.0.1/$1") 2>/dev/null; then return 0; fi
        sleep 0.1
    done
    cat -- "$folder"/*.err >&2 2>/dev/null || true
    fail "$2 doesn't listen"
}

# The server's own user, since PostgreSQL doesn't run as root.
as_server() { if [ "$(id -u)" = 0 ]; then setpriv --reuid=postgres --regid=postgres --init-groups "$@"; else "$@"; fi; }
admin() { as_server psql -X -q -h "$folder/pg" -p "$pg_port" -U postgres -d postgres "$@"; }

start_postgres() {
    mkdir "$folder/pg"
    if [ "$(id -u)" = 0 ]; then chown postgres "$folder/pg"; fi
    (cd "$folder/pg" && as_server "$server/initdb" -D "$folder/pg/data" -A trust -U postgres --locale=C -E UTF8 >"$folder/initdb.log")
    cat >"$folder/pg/data/pg_hba.conf" <<'H'
local all all trust
host all plain 127.0.0.1/32 password
host all hashed 127.0.0.1/32 md5
host all all 127.0.0.1/32 scram-sha-256
H
    cat >>"$folder/pg/data/postgresql.conf" <<H
listen_addresses = '127.0.0.1'
port = $pg_port
unix_socket_directories = '$folder/pg'
fsync = off
autovacuum = off
H
    if [ "$(id -u)" = 0 ]; then
        (cd "$folder/pg" && exec setpriv --reuid=postgres --regid=postgres --init-groups "$server/postgres" -D "$folder/pg/data") >"$folder/postgres.log" 2>&1 &
    else
        "$server/postgres" -D "$folder/pg/data" >"$folder/postgres.log" 2>&1 &
    fi
    pids+=("$!")
    for _ in $(seq 200); do
        if "$server/pg_isready" -q -h "$folder/pg" -p "$pg_port"; then break; fi
        sleep 0.1
    done
    (cd "$folder/pg" && admin -c "CREATE ROLE plain LOGIN PASSWORD 'pw'" -c "SET password_encryption = md5" -c "CREATE ROLE hashed LOGIN PASSWORD 'pw'" \
        -c "RESET password_encryption" -c "CREATE ROLE alice LOGIN PASSWORD 'pw' CREATEDB")
}

start_relay() { # start_relay PORT
    socat "TCP-LISTEN:$1,bind=127.0.0.1,reuseaddr,fork,nodelay" "TCP:127.0.0.1:$pg_port,nodelay" 2>"$folder/relay-$1.err" &
    pids+=("$!")
    wait_port "$1" "the relay"
}

start_proxy() { # start_proxy PORT PORT_BEHIND
    cat >"$folder/proxy-$1.toml" <<T
listen = "127.0.0.1:$1"

[[tenant]]
id = 7
version = 1

[[tenant.pod]]
number = 1
place = "127.0.0.1:$2"
state = "running"
T
    "$proxy" serve --config "$folder/proxy-$1.toml" >"$folder/proxy-$1.out" 2>"$folder/proxy-$1.err" &
    pids+=("$!")
    wait_port "$1" "the proxy"
}

start_pod() { # start_pod PORT
    cat >"$folder/pod-$1.toml" <<T
tenant = 7
secret = "a secret of these trials"
token_until = 4102444800
listen = ["127.0.0.1:$1"]

[[user]]
name = "alice"
password = "pw"
T
    "$pod" --config "$folder/pod-$1.toml" >"$folder/pod-$1.out" 2>"$folder/pod-$1.err" &
    pids+=("$!")
    wait_port "$1" "the pod"
}

cat >"$folder/psql.sql" <<'S'
\set VERBOSITY verbose
\pset null (null)
SELECT current_user, current_database(), 1 + 1 AS two, NULL AS nothing;
CREATE TABLE t (k int PRIMARY KEY, v text, at timestamptz DEFAULT '2026-01-01 00:00Z');
INSERT INTO t SELECT i, repeat(chr(65 + i % 26), i % 300) FROM generate_series(1, 3000) i;
SELECT count(*), sum(length(v)), md5(string_agg(v, ',' ORDER BY k)) FROM t;
SELECT k, v FROM t ORDER BY k;
COPY t (k, v) TO STDOUT;
COPY t (k, v) FROM STDIN;
5001	from the client
5002	\N
\.
SELECT * FROM t WHERE k > 5000 ORDER BY k;
COPY t (k, v) FROM STDIN;
not a number	x
\.
SELECT 1/0;
SELECT * FROM missing;
INSERT INTO t VALUES (1, 'again');
BEGIN;
SELECT pg_advisory_xact_lock(1);
SAVEPOINT s;
SELECT bad;
ROLLBACK TO s;
UPDATE t SET v = 'in a transaction' WHERE k = 7;
COMMIT;
SELECT v FROM t WHERE k = 7;
PREPARE p (int) AS SELECT v FROM t WHERE k = $1;
EXECUTE p (5001);
SET search_path = public, pg_catalog;
SHOW search_path;
SET client_encoding = 'LATIN1';
SHOW client_encoding;
RESET client_encoding;
DO $$ BEGIN RAISE NOTICE 'a notice'; RAISE WARNING 'a warning'; END $$;
LISTEN news;
NOTIFY news, 'a message';
SELECT 'after the notification' AS is;
DECLARE c CURSOR WITH HOLD FOR SELECT k FROM t ORDER BY k;
FETCH 5 FROM c;
CLOSE c;
\d t
\dt
SELECT 'one' AS a \; SELECT 'two' AS b;
SELECT k FROM t ORDER BY k LIMIT 3 \gdesc
SELECT repeat('x', 2000000) AS long \g /dev/null
SELECT length(repeat('x', 20000000));
;
SELECT '\x00ff'::bytea, 'naïve ☃', E'a\tb';
S

# No part waits forever.
limited() { timeout 200 "$@"; }
psql() { limited psql "$@"; }
pgbench() { limited pgbench "$@"; }

# A client's part: prints what the client says. The connection stands in the PG variables.
run_login() {
    for user in alice hashed plain; do PGUSER=$user psql -X -A -t -c "SELECT current_user"; done
    PGDATABASE=${PGDATABASE}missing psql -X -c "SELECT 1" || echo "status $?"
    PGPASSWORD=wrong psql -X -c "SELECT 1" || echo "status $?"
    sleep 2 # a wrong password makes the proxy wait a second
    psql -X -A -t -c "SELECT 'again'"
}
run_psql() { psql -X -a -f "$folder/psql.sql"; }
run_pgbench() { # run_pgbench PROTOCOL
    pgbench -i -q -s 1 2>/dev/null
    pgbench -n -M "$1" -c 1 -t 300 --random-seed=7 2>&1 | grep -e '^query mode' -e '^number of'
    pgbench -n -M "$1" -c 4 -j 2 -t 50 2>&1 | grep -e '^query mode' -e '^number of'
    pgbench -n -S -M "$1" -c 8 -j 2 -t 100 2>&1 | grep -e '^query mode' -e '^number of'
    psql -X -A -c "SELECT count(*), sum(abalance) = (SELECT sum(delta) FROM pgbench_history) AS fits FROM pgbench_accounts" \
        -c "SELECT count(*) FROM pgbench_history"
}
run_simple() { run_pgbench simple; }
run_prepared() { run_pgbench prepared; }

cat >"$folder/psycopg.py" <<'P'
import io, threading, time
import psycopg2, psycopg2.extras

c = psycopg2.connect("")
q = c.cursor()
q.execute("CREATE TABLE t (k int PRIMARY KEY, v text, n numeric, b bytea)")
q.executemany("INSERT INTO t VALUES (%s, %s, %s, %s)", [(i, f"v{i}", i / 4, bytes([i])) for i in range(200)])
psycopg2.extras.execute_values(q, "INSERT INTO t (k, v) VALUES %s", [(i, None) for i in range(1000, 3000)])
c.commit()
q.execute("SELECT k, v, n, b FROM t WHERE k < %s ORDER BY k", (5,))
print([(k, v, str(n), bytes(b)) for k, v, n, b in q.fetchall()])
q.copy_expert("COPY t (k, v) FROM STDIN", io.StringIO("".join(f"{i}\tcopied {i}\n" for i in range(5000, 25000))))
out = io.StringIO()
q.copy_expert("COPY (SELECT k, v FROM t ORDER BY k) TO STDOUT", out)
print(len(out.getvalue()), out.getvalue()[-40:])
c.commit()
try:
    q.execute("INSERT INTO t VALUES (0)")
except psycopg2.Error as e:
    print(e.pgcode, e)
c.rollback()
with c.cursor("named") as n:
    n.itersize = 100
    n.execute("SELECT k FROM t ORDER BY k")
    print(sum(k for k, in n))
c.commit()
q.execute("DO $$ BEGIN RAISE NOTICE 'told'; END $$")
print(c.notices)
c.commit()
c.autocommit = True
q.execute("LISTEN news; NOTIFY news, 'heard'")
c.poll()
print([(n.channel, n.payload) for n in c.notifies])
threading.Timer(0.5, c.cancel).start()
began = time.monotonic()
try:
    q.execute("SELECT pg_sleep(20)")
except psycopg2.Error as e:
    print(e.pgcode, time.monotonic() - began < 10)
q.execute("SELECT 'still here', current_setting('application_name')")
print(q.fetchone())
many = [psycopg2.connect("") for _ in range(20)]
for i, it in enumerate(many):
    it.cursor().execute("SET application_name = %s", (f"client {i}",))
for it in many:
    m = it.cursor()
    m.execute("SHOW application_name")
    print(m.fetchone())
    it.close()
P
run_psycopg2() { limited "$python" "$folder/psycopg.py"; }

cat >"$folder/Trial.java" <<'J'
import java.io.*;
import java.sql.*;
import org.postgresql.PGConnection;

public class Trial {
    public static void main(String[] words) throws Exception {
        String url = "jdbc:postgresql://127.0.0.1:" + words[0] + "/" + words[1] + "?sslmode=disable";
        Connection c = DriverManager.getConnection(url, "alice", "pw");
        Statement s = c.createStatement();
        s.execute("CREATE TABLE t (k int PRIMARY KEY, v text)");
        PreparedStatement p = c.prepareStatement("INSERT INTO t VALUES (?, ?)");
        for (int i = 0; i < 500; i++) { p.setInt(1, i); p.setString(2, "v" + i); p.addBatch(); }
        System.out.println(p.executeBatch().length);
        PreparedStatement q = c.prepareStatement("SELECT v FROM t WHERE k = ?");
        for (int i = 0; i < 20; i++) {
            q.setInt(1, i * 7);
            try (ResultSet r = q.executeQuery()) { while (r.next()) System.out.println(r.getString(1)); }
        }
        c.setAutoCommit(false);
        Statement f = c.createStatement();
        f.setFetchSize(50);
        long sum = 0;
        try (ResultSet r = f.executeQuery("SELECT k FROM t ORDER BY k")) { while (r.next()) sum += r.getInt(1); }
        System.out.println(sum);
        c.commit();
        var copy = c.unwrap(PGConnection.class).getCopyAPI();
        StringBuilder rows = new StringBuilder();
        for (int i = 1000; i < 9000; i++) rows.append(i).append('\t').append("copied\n");
        System.out.println(copy.copyIn("COPY t FROM STDIN", new StringReader(rows.toString())));
        StringWriter out = new StringWriter();
        System.out.println(copy.copyOut("COPY t TO STDOUT", out) + " " + out.toString().length());
        c.commit();
        try { s.execute("INSERT INTO t VALUES (0, 'again')"); } catch (SQLException e) { System.out.println(e.getSQLState() + " " + e.getMessage()); }
        c.rollback();
        Savepoint at = c.setSavepoint();
        s.execute("DELETE FROM t");
        c.rollback(at);
        c.commit();
        c.setAutoCommit(true);
        try (ResultSet r = c.getMetaData().getColumns(null, "public", "t", null)) { while (r.next()) System.out.println(r.getString(4) + " " + r.getString(6)); }
        Statement slow = c.createStatement();
        new Thread(() -> { try { Thread.sleep(500); slow.cancel(); } catch (Exception e) { System.out.println(e); } }).start();
        try { slow.execute("SELECT pg_sleep(20)"); } catch (SQLException e) { System.out.println(e.getSQLState()); }
        try (ResultSet r = s.executeQuery("SELECT count(*) FROM t")) { r.next(); System.out.println(r.getInt(1)); }
        c.close();
        System.out.println("closed " + c.isClosed());
    }
}
J
run_jdbc() { limited java -cp "$jar" "$folder/Trial.java" "$PGPORT" "$PGDATABASE"; }

# What differs by itself: ports, process numbers, and the name that carries the cluster.
plain() { sed -E 's/port [0-9]+/port N/g; s/PID [0-9]+/PID N/g; s/koala-7\.//g'; }

table=$folder/table
: >"$table"
worst=0
row() { printf '| %s | %s | %s |\n' "$1" "$2" "$3" >>"$table"; }

judge() { # judge NAME: compares what was said both ways
    said="the same both ways"
    if ! cmp -s "$folder/direct.said" "$folder/proxy.said"; then
        said="**differs**"
        worst=1
        echo "$1: directly (-) and through the proxy (+):"
        diff -U 1 "$folder/direct.said" "$folder/proxy.said" | tail -n +3 | head -n 40 || true
    fi
    row "$1" "$(wc -l <"$folder/direct.said")" "$said"
}

compare() { # compare NAME FUNCTION
    echo "$1 .."
    for way in direct proxy; do
        (cd "$folder/pg" && admin -c "DROP DATABASE IF EXISTS bench WITH (FORCE)" -c "CREATE DATABASE bench OWNER alice" 2>/dev/null)
        if [ $way = direct ]; then at=$direct_port name=bench; else at=$proxy_port name=$proxy_name; fi
        (
            export PGHOST=127.0.0.1 PGPORT=$at PGUSER=alice PGPASSWORD=pw PGDATABASE=$name PGSSLMODE=disable
            set +e
            "$2" 2>&1 </dev/null
            echo "status $?"
        ) | plain >"$folder/$way.said"
    done
    if grep -q '^status [1-9]' <(tail -n 1 "$folder/direct.said"); then
        tail -n 5 "$folder/direct.said"
        row "$1" "$(wc -l <"$folder/direct.said")" "**fails directly**"
        worst=1
    else
        judge "$1"
    fi
}

read -r pg_port direct_port proxy_port pod_1 pod_2 pod_proxy < <(free_ports 6)
start_postgres
start_relay "$direct_port"
if [ -n "$relay" ]; then
    proxy_name=bench
    start_relay "$proxy_port"
else
    proxy_name=koala-7.bench
    start_proxy "$proxy_port" "$pg_port"
fi

compare "logins (scram-sha-256, md5, password)" run_login
compare "psql $(psql --version | grep -o '[0-9.]*' | head -n 1)" run_psql
if has pgbench || [ -x "$server/pgbench" ]; then
    has pgbench || PATH=$PATH:$server
    compare "pgbench, simple protocol" run_simple
    compare "pgbench, prepared statements" run_prepared
else
    row "pgbench" 0 "not installed"
fi
python=
for it in python3 /usr/bin/python3; do
    if "$it" -c 'import psycopg2' 2>/dev/null; then python=$it; break; fi
done
if [ -n "$python" ]; then compare "psycopg2 $("$python" -c 'import psycopg2; print(psycopg2.__version__.split()[0])')" run_psycopg2; else row "psycopg2" 0 "not installed"; fi
jar=/usr/share/java/postgresql.jar
if has java && [ -e "$jar" ]; then compare "JDBC" run_jdbc; else row "JDBC" 0 "not installed"; fi

# Statements for the small pod, each in a connection of its own, with what they are.
cat >"$folder/pod.list" <<'L'
a table|CREATE TABLE t (k INT, v TEXT)
a row|INSERT INTO t VALUES (1, 'one')
a row by its key|SELECT * FROM t WHERE k = 1
columns by name|SELECT v FROM t
an update|UPDATE t SET v = 'uno' WHERE k = 1
a deletion|DELETE FROM t WHERE v = 'uno'
a variable|SET a TO 'b'
the variable of the startup packet|SHOW application_name
a transaction's beginning|BEGIN
nothing|;
COPY in|COPY t FROM STDIN
the same key twice|INSERT INTO t VALUES (2, 'x')
an unknown table|SELECT * FROM missing
an unknown column|SELECT w FROM t
a constant|SELECT 1
a function|SELECT now()
an expression in a filter|SELECT * FROM t WHERE k > 1
two filters|SELECT * FROM t WHERE k = 1 AND v = 'x'
an order|SELECT * FROM t ORDER BY k
a count|SELECT count(*) FROM t
a join|SELECT * FROM t JOIN t u ON t.k = u.k
columns of an insert|INSERT INTO t (k) VALUES (3)
several rows|INSERT INTO t VALUES (4, 'x'), (5, 'y')
NULL|INSERT INTO t VALUES (6, NULL)
an index or key|CREATE TABLE u (k INT PRIMARY KEY)
another type|CREATE TABLE u (k BIGINT)
a table's end|DROP TABLE t
two statements|INSERT INTO t VALUES (7, 'x'); SELECT * FROM t
COPY out|COPY t TO STDOUT
PREPARE in SQL|PREPARE p AS SELECT * FROM t
a cursor|DECLARE c CURSOR FOR SELECT * FROM t
a notification|LISTEN news
the catalog, as psql's \d asks it|\d
L

run_pod() { # run_pod: asks each statement of the list, and says what came of it in one line
    while IFS='|' read -r what sql; do
        case $what in
        "COPY in") said=$(printf '2\ttwo\n3\tthree\n' | psql -X -A -t -v VERBOSITY=verbose -c "$sql" 2>&1) || said="refused: $said" ;;
        *) said=$(psql -X -A -t -v VERBOSITY=verbose -c "$sql" 2>&1 </dev/null) || said="refused: $said" ;;
        esac
        printf '%s|%s|%s\n' "$what" "$sql" "$(head -n 1 <<<"$said")"
    done <"$folder/pod.list"
}

refusals=
if [ -n "$relay" ] || [ ! -x "$pod" ]; then
    row "psql before sqlpod" 0 "left out"
else
    echo "psql before sqlpod .."
    start_pod "$pod_1"
    start_pod "$pod_2"
    start_proxy "$pod_proxy" "$pod_2"
    export PGHOST=127.0.0.1 PGUSER=alice PGPASSWORD=pw PGSSLMODE=disable
    PGPORT=$pod_1 PGDATABASE=shop run_pod >"$folder/direct.said"
    PGPORT=$pod_proxy PGDATABASE=koala-7.shop run_pod >"$folder/proxy.said"
    judge "psql before sqlpod"
    refusals=$folder/direct.said
fi

if [ -n "$refusals" ]; then
    echo
    echo "What psql can't do at the small pod:"
    echo
    echo "| what | statement | refusal |"
    echo "| --- | --- | --- |"
    awk -F'|' '$3 ~ /^refused: / { sub(/^refused: /, "", $3); printf "| %s | `%s` | %s |\n", $1, $2, $3 }' "$refusals"
fi
echo
if [ -n "$relay" ]; then echo "A second relay stood in the proxy's place."; fi
echo "| client | lines | directly and through the proxy |"
echo "| --- | --- | --- |"
cat "$table"
exit "$worst"
