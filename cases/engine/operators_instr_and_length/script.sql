SET SCALE 2 ROUNDING HALF_UP;
INPUT "X" ("id" INTEGER, "a" TEXT, "b" TEXT) KEY ("id");
CREATE TABLE "U" AS
  SELECT "x"."id" AS "id", INSTR("x"."a", "x"."b") AS "a", INSTR("x"."a", 'é ') AS "b", INSTR("x"."a", '') AS "c", LENGTH("x"."a") AS "d", LENGTH("x"."b") AS "e"
  FROM "X" AS "x";
EXPORT "U";
