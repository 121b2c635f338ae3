SET SCALE 2 ROUNDING HALF_UP;
INPUT "X" ("id" INTEGER, "i" INTEGER, "n" NUMBER) KEY ("id");
CREATE TABLE "A" AS
  SELECT "x"."id" AS "id" FROM "X" AS "x" WHERE "x"."i" = 5;
CREATE TABLE "B" AS
  SELECT "x"."id" AS "id" FROM "X" AS "x" WHERE "x"."n" = 5;
CREATE TABLE "C" AS
  SELECT "x"."id" AS "id" FROM "X" AS "x" WHERE "x"."i" = 5.0;
CREATE TABLE "D" AS
  SELECT "x"."id" AS "id" FROM "X" AS "x" WHERE "x"."i" = 5.5;
CREATE TABLE "E" AS
  SELECT "x"."id" AS "id" FROM "X" AS "x" WHERE "x"."i" = "x"."id";
EXPORT "A" ORDER BY "id";
EXPORT "B" ORDER BY "id";
EXPORT "C" ORDER BY "id";
EXPORT "D" ORDER BY "id";
EXPORT "E" ORDER BY "id";
