-- Circles, and what was asked of them.

-- A circle has its own terms and members. Its words, in the order of docs/MEMORY.md, are packed: each run of words that
-- are not 0 as the place of its first word and the count of its words, of two bytes each, and then the words, all
-- little-endian.
create table circle (
    id      bigint primary key,
    version bigint not null default 0,  -- the moments that were made
    terms   bytea  not null,            -- 1,252 words of 16 bits
    state   bytea  not null             -- 3,073 words of 64 bits
);

-- Every request and revision that was answered, once. Numbers rise for a circle as its lines were written, since they
-- are drawn while its row is locked; between circles they mean nothing.
create table log (
    number    bigint generated always as identity,
    circle    bigint   not null,  -- its row is locked when the line is written, so it is there
    key       uuid     not null,  -- the client's, the same when it asks again
    version   bigint   not null,  -- the circle's after the request
    answered  timestamptz not null default now(),
    event     smallint,           -- the three of a request
    initiator smallint,
    target    smallint,
    answer    smallint not null,  -- request: 0 deny, 1 grant, 9 refused by that number; revision: 100 done, 13 refused
    terms     bytea,              -- the new ones of a revision, packed
    primary key (circle, key)
);

-- Nothing is ever taken out of the log or changed in it.
create function append_only() returns trigger language plpgsql as $$
begin
    raise exception 'the log is append-only';
end $$;
create trigger append_only before update or delete or truncate on log
    for each statement execute function append_only();
