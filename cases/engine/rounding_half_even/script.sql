SET SCALE 2 ROUNDING HALF_EVEN;
INPUT "S" ("n" NUMBER) KEY ("n");
CREATE TABLE "U" AS
  SELECT "s"."n" * 0.25 AS "a", "s"."n" * -0.25 AS "b", "s"."n" / 20 AS "c", -"s"."n" / 20 AS "d", 2 / 3 AS "e", ROUND("s"."n" * 0.25, 1) AS "f", 1.005 AS "g"
  FROM "S" AS "s";
EXPORT "U";
