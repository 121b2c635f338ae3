SET SCALE 2 ROUNDING HALF_UP;
INPUT "N" ("id" INTEGER, "i" INTEGER, "j" INTEGER, "n" NUMBER, "m" NUMBER) KEY ("id");
CREATE TABLE "U" AS
  SELECT "n"."id" AS "id", "n"."i" = 7 AS "a", "n"."i" <> 7 AS "b", "n"."i" < "n"."n" AS "c", "n"."i" <= 7.0 AS "d", "n"."n" > "n"."m" AS "e", "n"."j" >= "n"."m" AS "f"
  FROM "N" AS "n";
EXPORT "U";
