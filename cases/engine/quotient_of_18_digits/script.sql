SET SCALE 9 ROUNDING HALF_UP;
INPUT "T" ("n" NUMBER) KEY ("n");
CREATE TABLE "U" AS
  SELECT "t"."n" / "t"."n" AS "a", "t"."n" / 3 AS "b", "t"."n" * 0.5 AS "c", 1 / "t"."n" AS "d"
  FROM "T" AS "t";
EXPORT "U";
