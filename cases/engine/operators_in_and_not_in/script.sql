SET SCALE 2 ROUNDING HALF_UP;
INPUT "N" ("id" INTEGER, "i" INTEGER, "j" INTEGER, "n" NUMBER, "m" NUMBER) KEY ("id");
CREATE TABLE "U" AS
  SELECT "n"."id" AS "id", "n"."i" IN (7, 8) AS "a", "n"."i" NOT IN (7, 8) AS "b", "n"."n" IN (-2.25, 2.2499, 3) AS "c", "n"."j" IN (-2) AS "d"
  FROM "N" AS "n";
EXPORT "U";
