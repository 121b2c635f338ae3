SET SCALE 2 ROUNDING HALF_UP;
INPUT "T" ("id" INTEGER, "k" INTEGER, "v" INTEGER) KEY ("id");
INPUT "S" ("id" INTEGER, "k" INTEGER, "w" TEXT) KEY ("id");
CREATE TABLE "U" AS
  SELECT "t"."k" AS "k", COUNT(*) AS "n"
  FROM "T" AS "t"
  INNER JOIN "S" AS "s" ON "t"."k" = "s"."k"
  WHERE "t"."id" > 1
  GROUP BY "t"."k";
EXPORT "U";
