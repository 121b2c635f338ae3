SET SCALE 6 ROUNDING HALF_UP;
INPUT "x" ("k" TEXT, "j" INTEGER, "u" INTEGER) KEY ("k", "j");
INPUT "y" ("k" TEXT, "v" NUMBER) KEY ("k");
CREATE TABLE "R$1" AS
  SELECT "a$0"."k" AS "k", "a$0"."j" AS "j", "a$0"."u" AS "u", "a$1"."v" AS "v"
  FROM "x" AS "a$0"
  INNER JOIN "y" AS "a$1" ON "a$1"."k" = "a$0"."k";
CREATE TABLE "R" AS
  SELECT "a"."k" AS "k", SUM("a"."u") AS "s", MAX("a"."v") AS "t"
  FROM "R$1" AS "a"
  GROUP BY "a"."k";
EXPORT "R" ORDER BY "k";
