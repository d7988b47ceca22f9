-- The tables of a mailbox, in SQL that SQLite and PostgreSQL both take. A digest leads every
-- key; there is no sequence, foreign key, temporary table or lock by name.

-- one row: the number of this schema, and of the rules by which the digests were made
create table mailbox (
    layout bigint not null primary key,
    rules bigint not null
);

-- each interchange once; raw is what the first delivery brought, or null once it is forgotten
create table interchange (
    digest bytea not null primary key,
    rules bigint not null,
    arrived text not null,
    network text not null,
    first_delivery text not null,
    first_piece bigint not null,
    sender text not null,
    recipient text not null,
    reference text not null,
    raw bytea
);

-- each delivery of a kept interchange, the first one too
create table delivery (
    digest bytea not null,
    delivery text not null,
    piece bigint not null,
    arrived text not null,
    network text not null,
    primary key (digest, delivery, piece)
);

-- each delivery of what is refused, by the digest of its bytes as they are
create table refusal (
    digest bytea not null,
    delivery text not null,
    piece bigint not null,
    arrived text not null,
    network text not null,
    rules bigint not null,
    number bigint not null,
    place bigint not null,
    primary key (digest, delivery, piece)
);

create index interchange_arrived on interchange (arrived);
create index delivery_arrived on delivery (arrived);
create index refusal_arrived on refusal (arrived);
