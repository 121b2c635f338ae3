SET SCALE 2 ROUNDING HALF_UP;
INPUT "X" ("id" INTEGER, "s" TEXT) KEY ("id");
CREATE TABLE "A" AS
  SELECT "x"."id" AS "id" FROM "X" AS "x" WHERE "x"."s" = 'ab';
CREATE TABLE "B" AS
  SELECT "x"."id" AS "id" FROM "X" AS "x" WHERE 'ab' = "x"."s";
CREATE TABLE "C" AS
  SELECT "x"."id" AS "id" FROM "X" AS "x" WHERE "x"."s" = '';
CREATE TABLE "D" AS
  SELECT "x"."id" AS "id" FROM "X" AS "x" WHERE "x"."s" = NULL;
CREATE TABLE "E" AS
  SELECT "x"."id" AS "id" FROM "X" AS "x" WHERE "x"."s" = 'a' OR "x"."s" = 'abc';
EXPORT "A" ORDER BY "id";
EXPORT "B" ORDER BY "id";
EXPORT "C" ORDER BY "id";
EXPORT "D" ORDER BY "id";
EXPORT "E" ORDER BY "id";
