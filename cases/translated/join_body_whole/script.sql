SET SCALE 6 ROUNDING HALF_UP;
INPUT "x" ("k" TEXT, "u" INTEGER) KEY ("k");
INPUT "y" ("k" TEXT, "v" INTEGER) KEY ("k");
CREATE TABLE "R$1" AS
  SELECT "a$0"."k" AS "k", "a$0"."u" AS "u", "a$1"."v" AS "v"
  FROM "x" AS "a$0"
  LEFT JOIN "y" AS "a$1" ON "a$1"."k" = "a$0"."k"
  WHERE "a$0"."u" > 1;
CREATE TABLE "R$2" AS
  SELECT "a"."k" AS "k", "a"."u" AS "u", "a"."v" AS "v", "a"."u" * 2 AS "s",
    COALESCE("a"."v", 9) AS "w"
  FROM "R$1" AS "a";
CREATE TABLE "R$3" AS
  SELECT "a"."k" AS "k", "a"."s" AS "s", "a"."w" AS "w"
  FROM "R$2" AS "a";
CREATE TABLE "R" AS
  SELECT "a"."k" AS "k", "a"."s" AS "t", "a"."w" AS "w"
  FROM "R$3" AS "a";
EXPORT "R" ORDER BY "k";
