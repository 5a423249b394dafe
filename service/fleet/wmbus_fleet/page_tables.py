"""What the page reads of the fleet's database: views under the names that the service's tables have, so that the same questions are asked
of both. None of them has a key, or what was made with one; a role that `allow` names may read them, and by itself nothing else."""
from __future__ import annotations

from .schema import SHARDS

# a shard's oldest line that waits, and when its receiver heard it, where that says so
_WAITING = " union all ".join(
    f"(select {shard} as shard, case when text ~ '^[AB] [0-9]{{1,12}} ' then split_part(text, ' ', 2)::bigint end as heard"
    f" from public.inbox_{shard} order by id limit 1)" for shard in range(SHARDS))

# (others wait for what a gateway that is cut off heard before they were due)
LATE = """create or replace view page.late as select count(*) as count, min(m.due) as since from public.meter m
    left join public.gateway g on g.name = m.gateway where m.due < extract(epoch from now()) - 60 and (g.name is null or g.until > m.due);"""

# (access codes, passwords and keys of a meter are among the unknown quantities)
RECORD = """create or replace view page.record as
    select r.line as reading, e.place - 1 as place, e.it ->> 'quantity' as quantity, e.it ->> 'unit' as unit,
        (e.it ->> 'exponent')::integer as exponent, e.it ->> 'value' as value, e.it ->> 'function' as function,
        (e.it ->> 'storage')::bigint as storage, (e.it ->> 'tariff')::bigint as tariff, (e.it ->> 'subunit')::bigint as subunit,
        e.it ->> 'modifiers' as modifiers, case e.it ->> 'quantity' when 'unknown' then '' else e.it ->> 'raw' end as raw
    from public.reading r cross join lateral json_array_elements(r.records) with ordinality as e (it, place)
    where e.it ->> 'quantity' is not null;"""

# how a gateway's rate falls behind its last message; PostgreSQL has no number for what is left of it behind half a day
FADED = "exp(greatest(-6000, least(0, extract(epoch from coalesce({seen}, now()) - now()))) / 60)"
# how many lines a second a gateway sends, as in the last minute
RATE = f"rate * {FADED.format(seen='seen')}"

METER = "create or replace view page.meter as select address, name, gateway as receiver, gateway, heard, retired from public.meter;"

VIEWS = f"""
create schema page;
{METER}
create view page.reading as select line as id, line, address, counter, moment, gateway as receiver, made from public.reading;
{RECORD}
-- no day's last value outlives its reading here
create view page.daily as select ''::text as address, ''::text as day, ''::text as quantity, ''::text as unit, 0 as exponent,
    ''::text as value, ''::text as function, 0 as storage, 0 as tariff, 0 as subunit where false;
create view page.refusal as select address, reason, words, times, last_made, gateway from public.refusal;
create view page.stranger as select address, times, gateway as receiver, last_made from public.stranger;
create view page.command as
    select place as rowid, id, address, kind, case kind when 'send' then payload else '' end as payload, state, number, tries, reason, wish,
        made, changed from public.command;
create view page.outbox as select id, gateway as receiver, address, down, missed, made, sent from public.outbox;
create view page.aside as select id, gateway as receiver, said, made from public.aside;
create view page.total as select name, sum(value)::bigint as value from public.total group by name;
create view page.area as select name from public.area;
create view page.gateway as select name, area, epoch, number, until, extract(epoch from seen)::double precision as seen,
    gone is not null as gone, lines, strangers, {RATE} as rate from public.gateway;
create view page.missing as select gateway, epoch, number, made from public.missing;
create view page.inbox as select gateway from public.inbox;
create view page.waiting as {_WAITING};
{LATE}
create view page.worker as select application_name as name, count(*) as count from pg_stat_activity
    where datname = current_database() and application_name like 'wmbus %' group by application_name;
create view page.kept as select name, value, made from public.kept;
create view page.release as select value::integer as version from public.setting where name = 'version';
"""
