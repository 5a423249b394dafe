"""The tables of the database, and how those of an earlier version become those of this one."""
from __future__ import annotations

# in the head of the file, so that another program's database is seen to be one
APPLICATION = 0x776D6275

FIRST = """
create table setting (name text primary key, value text not null) without rowid;
-- a meter: its part of the program's state, with its key; whether its window waits for an answer, how many fragments are held, and when
-- its tick is due
create table meter (
    address text primary key, place integer not null unique, name text not null default '', block text not null,
    waits integer, holds integer not null default 0, due real, receiver text) without rowid;
-- up to which byte a receiver's file is taken: lines in front of it are committed
create table source (receiver text, file text, taken integer not null, primary key (receiver, file)) without rowid;
-- each line as it was committed, in that order; those of the service itself have no receiver, and a tick has the moment at which it was
-- due
create table line (
    number integer primary key autoincrement, receiver text, text text not null, due real, made real not null);
create table reading (
    id integer primary key, line integer not null unique, address text not null, counter integer not null, moment integer not null,
    receiver text, payload text, fault text, more integer not null, made real not null);
create index reading_of_meter on reading (address, moment);
create index reading_by_age on reading (made);
create table record (
    reading integer not null references reading on delete cascade, place integer not null, quantity text not null, unit text not null,
    exponent integer not null, value text not null, function text not null, storage integer not null, tariff integer not null,
    subunit integer not null, modifiers text not null, raw text not null, primary key (reading, place)) without rowid;
-- the last value of each day, kept when its reading goes
create table daily (
    address text, day text, quantity text, unit text, exponent integer, value text, function text, storage integer, tariff integer,
    subunit integer,
    primary key (address, day, quantity, function, storage, tariff, subunit)) without rowid;
create table refusal (
    address text, reason text, words text not null, times integer not null, last_line integer not null, last_made real not null,
    primary key (address, reason)) without rowid;
create table stranger (address text primary key, times integer not null, receiver text, last_made real not null) without rowid;
-- what an operator asked for: state is waiting, queued, sent, confirmed, expired, cancelled, refused or done; number is the program's id
create table command (
    id text primary key, address text not null, kind text not null, payload text not null, state text not null default 'waiting',
    number integer, tries integer not null default 0, reason text, wish text, made real not null, changed real not null);
create index command_of_meter on command (address, number);
create index command_open on command (state) where state in ('waiting', 'queued', 'sent');
create table outbox (
    id integer primary key, receiver text not null, address text not null, down integer not null, frame text not null,
    command integer not null, made real not null, sent real, missed text, unique (address, down));
create index outbox_open on outbox (id) where sent is null and missed is null;
create table publication (id integer primary key autoincrement, topic text not null, payload text not null, retain integer not null);
create table announced (address text, name text, primary key (address, name)) without rowid;
-- lines with which the program ends otherwise than it has to
create table aside (id integer primary key, receiver text, text text not null, said text not null, made real not null);
create table total (name text primary key, value integer not null) without rowid;
"""

# a register of a day is told apart by its unit and its modifiers too; of what is kept already these aren't known, and it counts for one
# without any
DAYS = """
alter table daily rename to daily_of_before;
create table daily (
    address text, day text, quantity text, unit text, exponent integer, value text, function text, storage integer, tariff integer,
    subunit integer, modifiers text,
    primary key (address, day, quantity, unit, function, storage, tariff, subunit, modifiers)) without rowid;
insert into daily select address, day, quantity, unit, exponent, value, function, storage, tariff, subunit, '' from daily_of_before;
drop table daily_of_before;
"""

# what went wrong is found without a look at all that went right
FAILED = """
create index command_failed on command (changed) where state in ('expired', 'refused');
create index outbox_missed on outbox (id) where missed is not null;
"""

# since when a message waits, and which is the last one of its topic
WAITING = """
alter table publication add column made real;
create index publication_of_topic on publication (topic);
"""

# a sensor's unit, which it has for ever (of those of before it isn't known), and whether the broker of now was told of it
UNITS = """
alter table announced add column unit text;
alter table announced add column told integer not null default 1;
"""

# lines of a state that an earlier service took for meters', where it was named as a roster
NO_METERS = "delete from meter where substr(block, 1, 6) <> 'meter ';\n"

# since when a meter is out of service, in seconds since 1970; null while it is in service
RETIRED = "alter table meter add column retired real;\n"

# a day's value has the zone in which its day was cut, and when it was heard; null without a time. Those of before were cut in UTC, and may be
# as late as their day's end
ZONES = """
alter table daily rename to daily_of_before;
create table daily (
    address text, day text, quantity text, unit text, exponent integer, value text, function text, storage integer, tariff integer,
    subunit integer, modifiers text, zone text, moment integer,
    primary key (address, day, zone, quantity, unit, function, storage, tariff, subunit, modifiers)) without rowid;
insert into daily select address, day, quantity, unit, exponent, value, function, storage, tariff, subunit, modifiers, 'UTC',
    cast(strftime('%s', day) as integer) + 86399 from daily_of_before;
drop table daily_of_before;
"""

# who put a command, and messages over which the broker ends each connection
ASKED = """
alter table command add column asked_by text not null default '';
create table publication_aside (id integer primary key, topic text not null, payload text not null, said text not null, made real not null);
"""

# the statements that make of version N the version N + 1
MIGRATIONS = (FIRST, DAYS, FAILED, WAITING, UNITS, NO_METERS, RETIRED, ZONES, ASKED)
VERSION = len(MIGRATIONS)
