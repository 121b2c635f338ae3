SET SCALE 2 ROUNDING HALF_UP;
INPUT "D" ("id" INTEGER, "d" DATE, "p" PERIOD) KEY ("id");
CREATE TABLE "U" AS
  SELECT "d"."id" AS "id", "d"."d" < DATE '2024-03-01' AS "a", "d"."d" = DATE '2024-02-29' AS "b", "d"."p" > PERIOD '2024-S2' AS "c", "d"."p" < PERIOD '0001-M01' AS "d", "d"."p" = PERIOD '2024-M12' AS "e"
  FROM "D" AS "d";
EXPORT "U";
