SET SCALE 2 ROUNDING HALF_UP;
INPUT "T" ("id" INTEGER, "k" INTEGER, "v" INTEGER) KEY ("id");
CREATE TABLE "U" AS
  SELECT "t"."id" AS "id", LAG("t"."v", 1, NULL) OVER (PARTITION BY "t"."k" ORDER BY "t"."id" DESC) AS "w"
  FROM "T" AS "t";
EXPORT "U";
