SET SCALE 2 ROUNDING HALF_UP;
INPUT "D" ("id" INTEGER, "d" DATE, "p" PERIOD) KEY ("id");
CREATE TABLE "U" AS
  SELECT "d"."id" AS "id", "d"."d" IN (DATE '2024-02-29', DATE '2020-01-01') AS "a", "d"."p" NOT IN (PERIOD '2024-M12') AS "b", 'a' IN ('b', 'a') AS "c", TRUE IN (FALSE) AS "d", NULL IN (1, 2.5) AS "e"
  FROM "D" AS "d";
EXPORT "U";
