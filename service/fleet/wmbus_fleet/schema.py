"""The fleet's tables in PostgreSQL."""
from __future__ import annotations

VERSION = 6
SHARDS = 16

TABLES = f"""
create table setting (name text primary key, value text not null);
create table area (name text primary key);
-- the fence: a gateway's last message that was taken, until when all that it heard is taken, by its clock; when it was asked to send again,
-- when it was heard last, and when it was taken away; digests of its last messages, the last one last; how many lines were taken of it, how
-- many a second as of late, and how many of meters that aren't known were counted and not kept
create table gateway (
    name text primary key, area text not null references area, epoch bigint not null default 0, number bigint not null default 0,
    until bigint not null default 0, asked timestamptz, seen timestamptz, gone timestamptz, digests bigint[] not null default '{{}}',
    lines bigint not null default 0, rate double precision not null default 0, strangers bigint not null default 0);
-- the last message that was taken of each earlier epoch of a gateway, and the least number under which another one came and was left, until
-- the gateway begins again before it
create table ended (gateway text not null, epoch bigint not null, number bigint not null, made double precision not null, others bigint,
    primary key (gateway, epoch));
-- digests of a gateway's messages of before, 64 of an epoch each, but for those at its end
create table digest (gateway text not null, epoch bigint not null, part bigint not null, digests bigint[] not null,
    made double precision not null, primary key (gateway, epoch, part));
-- a meter's shard, whose sessions are one after the other
create function shard_of(address text) returns integer immutable language sql
    return ('x' || substr(md5(address), 1, 2))::bit(8)::integer & {SHARDS - 1};
-- a meter: its part of the program's state, with its key; whether its window waits for an answer, how many fragments are held, when its
-- tick is due, the gateway that heard it last, when its last reading was written, and since when it is out of service
create table meter (
    address text primary key, name text not null default '', block text not null, waits bigint, holds integer not null default 0,
    due double precision, gateway text, heard double precision, retired double precision) with (fillfactor = 70);
create index meter_due on meter (shard_of(address), due) where due is not null;
-- lines that were taken of gateways and that no session has heard yet
create sequence inbox_id;
create table inbox (
    id bigint not null default nextval('inbox_id'), address text not null, gateway text not null, epoch bigint not null,
    message bigint not null, place integer not null, text text not null) partition by list (shard_of(address));
-- each line as it was heard, in that order of its meter; those of the fleet itself have no gateway, and a tick has the moment at which it
-- was due
create sequence line_number;
create table line (
    number bigint primary key, address text not null, gateway text, epoch bigint, message bigint, place integer, text text not null,
    due double precision, made double precision not null);
create table reading (
    line bigint primary key, address text not null, gateway text, counter bigint not null, moment numeric not null, payload text not null,
    fault text, more boolean not null, records json not null, made double precision not null);
create index reading_of_meter on reading (address, moment);
create table refusal (
    address text, reason text, words text not null, times bigint not null, last_line bigint not null, last_made double precision not null,
    gateway text, primary key (address, reason));
-- what a gateway says and nobody can take, by its name
create table oddity (gateway text, what text, times bigint not null, last_made double precision not null, primary key (gateway, what));
create table stranger (address text primary key, times bigint not null, gateway text, last_made double precision not null);
-- what an operator asked for: state is waiting, queued, sent, confirmed, unsure, expired, cancelled, refused or done; number is
-- the program's id
create table command (
    place bigint generated always as identity primary key, id text not null unique, address text not null, kind text not null,
    payload text not null, state text not null default 'waiting', number bigint, tries integer not null default 0, reason text, wish text,
    made double precision not null, changed double precision not null);
create index command_of_meter on command (address, number);
create index command_asked on command (shard_of(address)) where state = 'waiting' or wish is not null;
create table outbox (
    id bigint generated always as identity primary key, gateway text not null, address text not null, down bigint not null,
    frame text not null, command bigint not null, made double precision not null, sent double precision, missed text,
    unique (address, down));
create index outbox_open on outbox (id) where sent is null and missed is null;
-- a gateway began a new epoch behind this message of an earlier one, whose later ones may be gone
create table missing (gateway text not null, epoch bigint not null, number bigint not null, made double precision not null);
-- lines with which the program ends otherwise than it has to
create table aside (id bigint generated always as identity primary key, gateway text, text text not null, said text not null,
    made double precision not null);
-- sums over all meters of a large fleet, and when they were made
create table kept (name text primary key, value json not null, made double precision not null);
create table total (worker text, name text, value bigint not null, primary key (worker, name));
"""

INBOXES = "".join(
    f"create table inbox_{shard} partition of inbox for values in ({shard})"
    " with (autovacuum_vacuum_scale_factor = 0, autovacuum_vacuum_threshold = 20000);\n"
    f"create index inbox_{shard}_id on inbox_{shard} (id);\n" for shard in range(SHARDS))

# what makes of version 1 the second one
SECOND = """
drop index line_by_age;
drop index reading_by_age;
create table oddity (gateway text, what text, times bigint not null, last_made double precision not null, primary key (gateway, what));
alter table gateway add column gone timestamptz;
alter table meter add column heard double precision;
update meter m set heard = (select r.made from reading r where r.address = m.address order by r.moment desc limit 1);
"""

# what makes of version 2 the third one (no row is written anew)
THIRD = "alter table meter add column retired double precision;\n"


# what makes of version 3 the fourth one
FOURTH = """
alter table gateway add column digests bigint[] not null default '{}', add column lines bigint not null default 0,
    add column rate double precision not null default 0, add column strangers bigint not null default 0;
create table ended (gateway text not null, epoch bigint not null, number bigint not null, made double precision not null,
    primary key (gateway, epoch));
insert into ended select gateway, epoch, max(number), max(made) from missing group by gateway, epoch;
alter table refusal add column gateway text;
update refusal r set gateway = m.gateway from meter m where m.address = r.address;
create table kept (name text primary key, value json not null, made double precision not null);
insert into setting select 'keys_until', max(number)::text from line having max(number) is not null;
"""

# of version 4 only what the page reads is made anew
FIFTH = ""

# what makes of version 5 this one
SIXTH = """
alter table ended add column others bigint;
create table digest (gateway text not null, epoch bigint not null, part bigint not null, digests bigint[] not null,
    made double precision not null, primary key (gateway, epoch, part));
"""

# of each version what makes of it the next one
CHANGES = (SECOND, THIRD, FOURTH, FIFTH, SIXTH)
