-- Tables of versions before 0.15.0, brought to the form of schema.sql: words are packed, and the log has revisions.
-- Tables that have that form stay as they are.

set client_min_messages = warning;
alter table circle drop constraint if exists circle_terms_check, drop constraint if exists circle_state_check;
alter table log add column if not exists terms bytea,
    alter event drop not null, alter initiator drop not null, alter target drop not null;

-- A number of two bytes, the lower first.
create function pg_temp.two(number int) returns bytea language sql as $$
    select set_byte(set_byte('\x0000', 0, number % 256), 1, number / 256)
$$;

-- The runs of words that are not 0, each as the place of its first word, the count of its words, and the words.
create function pg_temp.packed(words bytea, width int) returns bytea language plpgsql as $$
declare
    zero   constant bytea := substr('\x0000000000000000'::bytea, 1, width);
    packed bytea := '';
    run    bytea := '';
    word   bytea;
begin
    -- The place after the last one has an empty word, which ends the last run.
    for place in 0 .. length(words) / width loop
        word := substr(words, place * width + 1, width);
        if word <> zero and word <> '' then
            run := run || word;
        elsif run <> '' then
            packed := packed || pg_temp.two(place - length(run) / width) || pg_temp.two(length(run) / width) || run;
            run := '';
        end if;
    end loop;
    return packed;
end $$;

-- The first word of terms counts the members. Packed terms begin with its place instead, which is 0.
update circle set terms = pg_temp.packed(terms, 2), state = pg_temp.packed(state, 8)
    where length(terms) = 2504 and substr(terms, 1, 2) <> '\x0000';
