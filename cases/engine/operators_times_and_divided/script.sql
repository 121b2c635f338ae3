SET SCALE 2 ROUNDING HALF_UP;
INPUT "N" ("id" INTEGER, "i" INTEGER, "j" INTEGER, "n" NUMBER, "m" NUMBER) KEY ("id");
CREATE TABLE "U" AS
  SELECT "n"."id" AS "id", "n"."i" * "n"."j" AS "a", "n"."i" / "n"."j" AS "b", "n"."n" * "n"."m" AS "c", "n"."n" / "n"."m" AS "d", "n"."i" * "n"."m" AS "e"
  FROM "N" AS "n";
EXPORT "U";
