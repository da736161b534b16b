CREATE TABLE english (id bigserial PRIMARY KEY, n int, words text);
CREATE TABLE deutsch (id bigserial PRIMARY KEY, n int, words text);
CREATE TABLE "ελληνικά" (id bigserial PRIMARY KEY, n int, words text);
CREATE TABLE "日本語" (id bigserial PRIMARY KEY, n int, words text);
CREATE TABLE ledger (id bigserial PRIMARY KEY, xid bigint);
CREATE TABLE values_of_any_size (id bigserial PRIMARY KEY, words text);
CREATE PUBLICATION "Four Languages" FOR TABLE english, deutsch, "ελληνικά", "日本語";
CREATE PUBLICATION ledger FOR TABLE ledger;
CREATE PUBLICATION large FOR TABLE values_of_any_size;
