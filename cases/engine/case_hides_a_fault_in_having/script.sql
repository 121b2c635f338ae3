SET SCALE 2 ROUNDING HALF_UP;
INPUT "T" ("id" INTEGER, "k" INTEGER, "v" INTEGER) KEY ("id");
CREATE TABLE "U" AS
  SELECT "t"."k" AS "k", COUNT(*) AS "n"
  FROM "T" AS "t"
  GROUP BY "t"."k"
  HAVING CASE WHEN COUNT("t"."v") = 0 THEN FALSE ELSE SUM("t"."v") / COUNT("t"."v") > 6 END;
EXPORT "U";
