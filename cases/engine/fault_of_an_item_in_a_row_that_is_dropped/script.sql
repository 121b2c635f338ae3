SET SCALE 2 ROUNDING HALF_UP;
INPUT "T" ("id" INTEGER, "k" INTEGER, "v" INTEGER) KEY ("id");
INPUT "S" ("id" INTEGER, "k" INTEGER) KEY ("id");
CREATE TABLE "U" AS
  SELECT 1 / "t"."k" AS "x"
  FROM "T" AS "t"
  WHERE "t"."k" <> 0;
EXPORT "U";
