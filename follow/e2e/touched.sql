CREATE TABLE english (id serial PRIMARY KEY, n int);
CREATE TABLE deutsch (id serial PRIMARY KEY, n int);
CREATE TABLE "ελληνικά" (id serial PRIMARY KEY, n int);
CREATE TABLE "日本語" (id serial PRIMARY KEY, n int);
CREATE SCHEMA "v.2";
CREATE TABLE "v.2".polski (id serial PRIMARY KEY, n int);
CREATE TABLE ledger (id serial PRIMARY KEY, n int);
CREATE TABLE unpublished (id serial PRIMARY KEY, n int);
CREATE PUBLICATION "it's touched" FOR TABLE english, deutsch, "ελληνικά", "日本語", "v.2".polski, ledger;
