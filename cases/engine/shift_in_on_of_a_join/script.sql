SET SCALE 0 ROUNDING DOWN;
INPUT "T" ("k" INTEGER, "p" PERIOD) KEY ("k");
CREATE TABLE "U" AS
  SELECT "a"."p" AS "p", "b"."k" AS "before"
  FROM "T" AS "a"
  LEFT JOIN "T" AS "b" ON PERIOD_SHIFT("b"."p", 1) = "a"."p";
EXPORT "U" ORDER BY "p";
