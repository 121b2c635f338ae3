SET SCALE 2 ROUNDING HALF_UP;
INPUT "T" ("id" INTEGER, "k" TEXT, "v" INTEGER) KEY ("id");
CREATE TABLE "U" AS
  SELECT "t"."id" AS "id", RATIO_TO_REPORT("t"."v") OVER (PARTITION BY "t"."k") AS "w1",
    RATIO_TO_REPORT("t"."v") OVER () AS "w2"
  FROM "T" AS "t";
EXPORT "U" ORDER BY "id";
