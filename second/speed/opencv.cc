// opencv.cc: the same figures by OpenCV, on the same bytes, and the same count of cells.
#include <opencv2/imgproc.hpp>

#include "speed.h"

int opencv(struct sheet *s, const struct figure *f) {
    cv::Mat sheet((int)s->side, (int)s->side, CV_8U, s->bytes, s->pitch);
    const cv::Scalar ink(1);
    switch (f->kind) {
    case LINE: cv::line(sheet, {f->x0, f->y0}, {f->x1, f->y1}, ink); return 1;
    case CIRCLE: cv::circle(sheet, {f->x0, f->y0}, (int)f->a, ink); return 1;
    case ELLIPSE: cv::ellipse(sheet, {f->x0, f->y0}, {(int)f->a, (int)f->b}, 0, 0, 360, ink); return 1;
    case CURVE:
    case CUBIC: {
        cv::Point points[65];
        const int pieces = 1 << f->s;
        for (int i = 0; i <= pieces; i++)
            joined(f, (uint32_t)i, &points[i].x, &points[i].y);
        const cv::Point *first = points;
        const int count = pieces + 1;
        cv::polylines(sheet, &first, &count, 1, false, ink);
        return 1;
    }
    case FILL:
        // it enters cells of the start's ink, here the one ink that is not the boundary's
        cv::floodFill(sheet, {f->x0, f->y0}, cv::Scalar(2), nullptr, cv::Scalar(), cv::Scalar(), 4);
        return 1;
    case LISTING: return 0;
    }
    return 0;
}

// cv::reduce over the sheet compared with 0 takes longer but on the smallest sheet, and the rows of a matrix of the sheet do too
int opencv_tally(struct sheet *s, const struct figure *) {
    for (uint32_t y = 0; y < s->side; y++)
        s->work[y] = (uint32_t)cv::countNonZero(cv::Mat(1, (int)s->side, CV_8U, s->bytes + (size_t)y * s->pitch));
    return 1;
}
