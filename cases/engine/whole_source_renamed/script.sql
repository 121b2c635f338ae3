SET SCALE 2 ROUNDING HALF_UP;
INPUT "X" ("id" INTEGER, "s" TEXT, "i" INTEGER) KEY ("id");
CREATE TABLE "A" AS
  SELECT "x"."id" AS "key", "x"."s" AS "text", "x"."i" AS "id" FROM "X" AS "x";
CREATE TABLE "B" AS
  SELECT "x"."key" AS "key", "x"."id" AS "id", "x"."text" AS "text" FROM "A" AS "x";
CREATE TABLE "C" AS
  SELECT "x"."id" AS "id", "x"."s" AS "s", "x"."i" AS "i" FROM "X" AS "x"
  UNION ALL
  SELECT "x"."key" AS "id", "x"."text" AS "s", "x"."id" AS "i" FROM "A" AS "x" WHERE "x"."id" > 0;
CREATE TABLE "D" AS
  SELECT "x"."id" AS "id", "x"."s" AS "s" FROM "X" AS "x";
CREATE TABLE "E" AS
  SELECT "x"."id" AS "id", "x"."s" AS "s", "x"."i" AS "i" FROM "X" AS "x" CROSS JOIN "A" AS "y" WHERE "y"."key" = 1;
EXPORT "A" ORDER BY "key";
EXPORT "B" ORDER BY "key";
EXPORT "C" ORDER BY "id";
EXPORT "D" ORDER BY "id";
EXPORT "E" ORDER BY "id";
