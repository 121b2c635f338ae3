SET SCALE 6 ROUNDING HALF_UP;
INPUT "y" ("k" TEXT, "v" NUMBER) KEY ("k");
CREATE TABLE "total" AS
  SELECT SUM("a"."v") AS "v"
  FROM "y" AS "a"
  HAVING MIN(TRUE);
CREATE TABLE "R$1" AS
  SELECT "a"."k" AS "k", "a"."v" / "b"."v" AS "v"
  FROM "y" AS "a"
  INNER JOIN "total" AS "b" ON TRUE;
CREATE TABLE "R" AS
  SELECT "a"."k" AS "k", "a"."v" * 100 AS "v"
  FROM "R$1" AS "a";
EXPORT "R" ORDER BY "k";
