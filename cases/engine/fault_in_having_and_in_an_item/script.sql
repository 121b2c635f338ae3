SET SCALE 2 ROUNDING HALF_UP;
INPUT "T" ("id" INTEGER, "k" INTEGER, "v" INTEGER) KEY ("id");
INPUT "S" ("id" INTEGER, "k" INTEGER) KEY ("id");
CREATE TABLE "U" AS
  SELECT 1 / ("t"."k" - 1) AS "x"
  FROM "T" AS "t"
  GROUP BY "t"."k"
  HAVING CASE WHEN "t"."k" = 0 THEN SUM("t"."v") * SUM("t"."v") > 0 ELSE TRUE END;
EXPORT "U";
