SET SCALE 2 ROUNDING HALF_UP;
INPUT "N" ("id" INTEGER, "i" INTEGER, "j" INTEGER, "n" NUMBER, "m" NUMBER) KEY ("id");
CREATE TABLE "U" AS
  SELECT "n"."id" AS "id", +"n"."i" AS "a", -"n"."i" AS "b", +"n"."n" AS "c", -"n"."n" AS "d", - -"n"."i" AS "e"
  FROM "N" AS "n";
EXPORT "U";
