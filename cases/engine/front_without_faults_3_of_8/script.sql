SET SCALE 2 ROUNDING HALF_UP;
INPUT "T" ("id" INTEGER, "k" INTEGER, "v" INTEGER) KEY ("id");
CREATE TABLE "U" AS
  SELECT "t"."k" AS "k", SUM("t"."v") AS "s"
  FROM "T" AS "t"
  WHERE "t"."v" > 0
  GROUP BY "t"."k";
