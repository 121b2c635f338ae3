SET SCALE 2 ROUNDING HALF_UP;
INPUT "T" ("id" INTEGER, "k" INTEGER, "v" INTEGER) KEY ("id");
INPUT "S" ("id" INTEGER, "k" INTEGER) KEY ("id");
CREATE TABLE "U" AS
  SELECT "t"."id" AS "x"
  FROM "T" AS "t"
  INNER JOIN "S" AS "s" ON "s"."k" / "t"."k" = 5
  WHERE "t"."k" <> 0;
EXPORT "U";
