SET SCALE 2 ROUNDING HALF_UP;
INPUT "N" ("id" INTEGER, "i" INTEGER, "j" INTEGER, "n" NUMBER, "m" NUMBER) KEY ("id");
CREATE TABLE "U" AS
  SELECT "n"."id" AS "id", MOD("n"."i", "n"."j") AS "a", MOD("n"."i", 0) AS "b", MOD("n"."n", "n"."m") AS "c", MOD("n"."i", "n"."m") AS "d"
  FROM "N" AS "n";
EXPORT "U";
