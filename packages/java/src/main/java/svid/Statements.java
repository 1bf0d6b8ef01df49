package svid;

import java.util.Map;

/** What a member says to a group's store in PostgreSQL, and what the answers mean. */
final class Statements {
    private Statements() {}

    // clang-format off
    // lists:begin postgres (written by tools/lists from lists/postgres.toml)
    static final String SESSION =
            "SELECT set_config('synchronous_commit', CASE WHEN current_setting('synchronous_commit') = 'remote_apply' THEN "
            + "'remote_apply' ELSE 'on' END, false), set_config('default_transaction_isolation', 'read committed', false), "
            + "set_config('statement_timeout', '10s', false), set_config('idle_in_transaction_session_timeout', '10s', false), "
            + "set_config('client_min_messages', 'warning', false), pg_backend_pid() || ' ' || (SELECT a.backend_start FROM "
            + "pg_stat_activity AS a WHERE a.pid = pg_backend_pid())";
    static final String TERMINATE =
            "SELECT pg_terminate_backend(a.pid) FROM pg_stat_activity AS a WHERE a.pid || ' ' || a.backend_start = ANY "
            + "(string_to_array(?, ','))";
    static final String ROLE =
            "SELECT CASE WHEN pg_is_in_recovery() THEN 0 ELSE 1 END::bigint, (SELECT c.system_identifier::text FROM "
            + "pg_control_system() AS c), pg_postmaster_start_time()::text, CASE WHEN pg_is_in_recovery() THEN '' ELSE "
            + "substr(pg_walfile_name(pg_current_wal_insert_lsn()), 1, 8) END";
    static final String STATE =
            "SELECT s.id::text, s.deaf, s.at, s.wait, s.lasts, s.margin, CASE WHEN s.due THEN 1 ELSE 0 END::bigint, CASE WHEN "
            + "s.format <> 1 THEN 'the group''s store has format ' || s.format || ' and not 1: another version of svid made it' WHEN "
            + "f.faults IS NOT NULL THEN 'the server of the group''s store may lose claims: ' || f.faults WHEN m.replicas > 1 AND NOT "
            + "s.sees THEN 'the owner of the group''s store may not see which standbys have a claim: GRANT pg_read_all_stats TO \"' || "
            + "replace(s.owner::text, '\"', '\"\"') || '\"' WHEN m.margin > s.margin THEN 'the group''s store keeps a claim for ' || "
            + "s.margin || ' s past its token''s expiry, and this member needs ' || m.margin || ' s: give all members the same clock "
            + "tolerance' WHEN m.margin - m.back > s.margin - s.back THEN 'the group''s store bears a step back of its clock by ' || "
            + "s.back || ' s of a margin of ' || s.margin || ' s, which leaves less than the ' || m.margin - m.back || ' s that this "
            + "member needs: give all members the same times' END FROM (SELECT ?::uuid AS known, ?::bytea[] AS keys, ?::bytea[] AS "
            + "owners, ?::bigint[] AS ends, ?::integer AS replicas, ?::bigint AS margin, ?::bigint AS back) AS m CROSS JOIN LATERAL "
            + "{S}.state(m.known, m.keys, m.owners, m.ends, m.replicas <= 1) AS s CROSS JOIN LATERAL (SELECT "
            + "current_setting('synchronous_standby_names') AS names) AS n CROSS JOIN LATERAL (SELECT CASE WHEN btrim(n.names) = '' "
            + "THEN 0 WHEN strpos(n.names, '(') = 0 OR strpos(split_part(n.names, '(', 1), '\"') > 0 THEN 1 ELSE greatest(1, "
            + "coalesce(substring(rtrim(split_part(n.names, '(', 1)) FROM '[0-9]{1,9}$')::integer, 1)) END AS waits) AS w CROSS JOIN "
            + "LATERAL (SELECT string_agg(u.fault, ', ') AS faults FROM unnest(ARRAY[ CASE WHEN current_setting('fsync') <> 'on' THEN "
            + "'fsync is ' || current_setting('fsync') || ' and must be on' END, CASE WHEN current_setting('full_page_writes') <> 'on' "
            + "THEN 'full_page_writes is ' || current_setting('full_page_writes') || ' and must be on' END, CASE WHEN "
            + "current_setting('synchronous_commit') NOT IN ('on', 'remote_apply') THEN 'synchronous_commit is ' || "
            + "current_setting('synchronous_commit') || ' and must be on' END, CASE WHEN m.replicas > 1 AND w.waits < m.replicas - 1 "
            + "THEN 'synchronous_standby_names is \"' || n.names || '\" and must wait for ' || m.replicas - 1 || ': such as ''FIRST ' || "
            + "m.replicas - 1 || ' (*)''' END ]) AS u (fault)) AS f";
    static final String AGREE =
            "SELECT {S}.agree(?::bigint)::text";
    static final String EXPIRE =
            "SELECT {S}.expire()";
    static final String PUT_ONE =
            "SELECT {S}.put(?::bytea, ?::bytea, ?::bigint)";
    static final String PUT =
            "SELECT {S}.put(?::bytea[], ?::bytea[], ?::bigint[])";
    static final String KEPT =
            "SELECT CASE WHEN {S}.kept(?::integer) THEN 1 ELSE 0 END::bigint";
    static final String WITHDRAW =
            "SELECT {S}.withdraw(?::bytea, ?::bigint)";
    static final String WITHDRAWALS =
            "SELECT w.this::text || '/' || w.last, coalesce(w.these, ''::bytea) FROM (SELECT ?::text AS t) AS p CROSS JOIN LATERAL "
            + "(SELECT CASE WHEN p.t ~ '^[0-9a-f]{8}(-[0-9a-f]{4}){3}-[0-9a-f]{12}/([0-9]{1,18}|[1-8][0-9]{18})$' THEN p.t END AS t) AS "
            + "q CROSS JOIN LATERAL {S}.withdrawals(split_part(q.t, '/', 1)::uuid, coalesce(split_part(q.t, '/', 2)::bigint, 0)) AS w";
    static final String LACKING =
            "SELECT string_agg(format('GRANT %s TO %I', l.it, current_user), '; ' ORDER BY l.it) FROM (SELECT n.oid, n.nspname FROM "
            + "pg_namespace AS n WHERE n.nspname = ?) AS s CROSS JOIN LATERAL (SELECT format('USAGE ON SCHEMA %I', s.nspname) AS it "
            + "WHERE NOT has_schema_privilege(s.oid, 'USAGE') UNION ALL SELECT format('EXECUTE ON FUNCTION %s', p.oid::regprocedure) "
            + "FROM pg_proc AS p WHERE p.pronamespace = s.oid AND p.proname IN ('put', 'kept', 'withdraw', 'withdrawals', 'state', "
            + "'expire', 'agree') AND NOT has_function_privilege(p.oid, 'EXECUTE')) AS l";
    static final String IS_MISSING = "there is no store in the database: an administrator makes it by what svidd schema prints";
    static final String IS_STANDBY = "the server is a standby";
    static final String IS_RIGHTS = "this user may not use the store of the group: an administrator gives it the rights that svidd schema --role prints";
    static final String IS_HELD = "somebody else claims the token at the moment, and has not committed that";
    static final String IS_RUN = "the server was restarted, and members check whether it lacks claims";
    static final String IS_BACK = "the store's clock went back";
    static final String IS_UNLOOKED = "nobody has looked at the store for a while, or its clock went ahead";
    static final String IS_GONE = "the entry was just removed";
    static final String IS_LATE = "the token expires too late by the store's clock, and nothing was stored";
    static final String IS_EPOCH = "the store's epoch ended meanwhile";
    static final String IS_ALONE = "not as many servers have the claim as are to have it";
    static final String IS_STALE = "another server has become the primary";
    static final String IS_ANSWER = "the server's answer is none of this store";
    static final String IS_SILENT = "the server did not answer in time";
    static final String IS_CLOSED = "the store is closed";
    static final Map<String, String> OF_CODES = Map.of("42P01", IS_MISSING, "3F000", IS_MISSING, "42883", IS_MISSING, "25006", IS_STANDBY, "55000", IS_STANDBY, "42501", IS_RIGHTS, "55P03", IS_HELD);
    static final Map<Integer, String> OF_STATUS = Map.of(1, IS_RUN, 4, IS_RUN, 2, IS_BACK, 3, IS_UNLOOKED);
    static final Map<Integer, String> OF_CELL = Map.of(0, IS_GONE, 2, IS_LATE);
    static final int STORED = 3;
    static final int QUARANTINE = 4;
    static final int MOST_CALLS = 8;
    static final int MOST_LEFT = 100;
    static final int PIECES = 10_000;
    static final long MOST_EXPIRY = 4_611_686_018_427_387_904L;
    static final int RECENT_MARKS = 8;
    static final int MOST_MARKS = 64;
    static final int DIAL_WAIT = 2_000;
    static final int STATE_EVERY = 1_000;
    static final int STATE_WAIT = 1_500;
    static final int HEAR_WAIT = 1_000;
    static final int MOST_UNLOOKED = 7_000;
    static final int LOOK_EVERY = 500;
    static final int LOOK_WAIT = 2_000;
    static final int SOON = 1_000;
    static final int MOST_AGE = 2_900;
    static final int STEP_BACK = 60_000;
    static final int LEAST_MARGIN = 60_000;
    // lists:end
    // clang-format on
}
